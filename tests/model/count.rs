//! How often each message name and each refusal came in a listing's output.
//! It also says whether every answer that reading can give came at least once.

use crate::message::MOST_BITS;
use std::collections::BTreeMap;
use std::io::{self, Write};

const NAMES: [&str; 15] = [
    "ACCEPT",
    "ACCEPTED",
    "ACTIVATE",
    "ACTIVATE ACK",
    "CANCEL",
    "DEACTIVATE",
    "DEACTIVATE ACK",
    "DIVERT",
    "DIVERTED",
    "INTERCEPTED",
    "INTERROGATE",
    "INTERROGATE ACK",
    "REJECT",
    "REJECTED",
    "REQUEST",
];
/// Those that reading under a sound profile can give.
const REFUSALS: [u32; 11] = [3, 4, 5, 6, 7, 9, 10, 11, 12, 13, 27];
/// No message is longer, and an element begins before the last bit that it wants.
const POSITIONS: usize = MOST_BITS;

/// Prints the counts, names before refusals; false if an answer never came or isn't known.
pub fn count(listing: &[u8], out: &mut dyn Write) -> io::Result<bool> {
    let mut answers = NAMES.map(str::to_string).to_vec();
    answers.extend(REFUSALS.into_iter().map(refusal));
    print_counts("listing", listing, &answers, answer_of, out)
}

/// All that follows the line's number; of a 4 without the position, if it is one.
fn answer_of(line: &str) -> String {
    let answer = line.split_once(' ').map_or("", |(_, answer)| answer);
    match answer.strip_prefix("refused 4 at ") {
        Some(position) if is_position(position) => refusal(4),
        _ => answer.to_string(),
    }
}

/// How a refusal is counted: 4 is one only where it says at which bit.
pub fn refusal(number: u32) -> String {
    match number {
        4 => "refused 4 at POSITION".to_string(),
        _ => format!("refused {number}"),
    }
}

/// Digits without a zero before them, and not past the longest message.
pub fn is_position(word: &str) -> bool {
    match word.parse::<usize>() {
        Ok(position) => position < POSITIONS && position.to_string() == word,
        Err(_) => false,
    }
}

/// How often each of the answers came in what the program printed, and what else came; false if
/// one never came or something else did.
pub fn print_counts(
    program: &str,
    printed: &[u8],
    answers: &[String],
    answer_of: fn(&str) -> String,
    out: &mut dyn Write,
) -> io::Result<bool> {
    let mut came: BTreeMap<String, u64> = BTreeMap::new();
    for line in String::from_utf8_lossy(printed).lines() {
        *came.entry(answer_of(line)).or_insert(0) += 1;
    }

    let mut complete = true;
    for answer in answers {
        let times = came.remove(answer).unwrap_or(0);
        writeln!(out, "{times:9} {answer}")?;
        complete &= times > 0;
    }
    for (unknown, times) in &came {
        writeln!(out, "{times:9} not an answer of the {program}: {unknown:?}")?;
    }
    Ok(complete && came.is_empty())
}
