//! How often each answer and each refusal came in a replay's output.
//! It also says whether every one of them came at least once.

use crate::count::{is_position, print_counts, refusal};
use crate::element::NAMES;
use std::io::{self, Write};
use std::ops::RangeInclusive;

const ANSWERS: [&str; 17] = [
    "acks 1",
    "acks 2",
    "acks 3",
    "state no-record",
    "state other-post",
    "state active",
    "state not-active",
    "free",
    "admitted",
    "proceed",
    "moved",
    "diverted",
    "rejected",
    "cancelled",
    "taken",
    "dump",
    "not understood",
];
/// Those that a desk can give; 22 is for writing.
const REFUSALS: [RangeInclusive<u32>; 3] = [1..=21, 23..=24, 26..=27];

/// Prints the counts, answers before refusals; false if one never came or isn't known.
pub fn tally(replay: &[u8], out: &mut dyn Write) -> io::Result<bool> {
    let mut answers = ANSWERS.map(str::to_string).to_vec();
    answers.extend(REFUSALS.into_iter().flatten().map(refusal));
    print_counts("replay", replay, &answers, answer_of, out)
}

/// The words that tell the answers apart, without the line's number and without what follows.
fn answer_of(line: &str) -> String {
    let words: Vec<&str> = line.split(' ').skip(1).collect();
    let telling = match words[..] {
        ["refused", "4", "at", position, name]
            if is_position(position) && NAMES.contains(&name) =>
        {
            return refusal(4);
        }
        // Any other refusal is its number and nothing more.
        ["refused", ..] => words.len(),
        ["acks" | "state" | "not", ..] => 2,
        _ => 1,
    };
    words[..telling.min(words.len())].join(" ")
}
