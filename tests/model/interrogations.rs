//! How often each thing came that request (viii) brings, in lines for the listing or in a script for
//! the replay, both run on the model: INTERROGATE ACK in reading, and in a script what INTERROGATE is
//! answered and what a profile's failure reasons are. It also says whether every one of them came at
//! least once.

mod answers;
mod events;
mod reading;

use crate::breaks::print;
use crate::line::{lines_of, read_line};
use crate::message::{read, MOST_BITS};
use crate::profile::{sample, Profile};
use crate::refusal::Refusal::Number;
use crate::script::{read_script_line, Line};
use crate::step::run_lines;
use events::{Event, Length, Read, EVENTS, LENGTHS, READS};
use reading::reads;
use std::collections::BTreeMap;
use std::io::{self, Write};

#[derive(Default)]
struct Counts {
    reads: BTreeMap<Read, u64>,
    lengths: BTreeMap<Length, u64>,
    events: BTreeMap<Event, u64>,
    /// Whether the profile in force was given with its failure reasons.
    reasons_given: bool,
}

/// Lines for the listing; prints the counts, false if something never came.
pub fn count_in_listing(input: &[u8], out: &mut dyn Write) -> io::Result<bool> {
    let profile = sample();
    let mut counts = Counts::default();
    for (length, bytes) in lines_of(input).into_iter().filter_map(read_line) {
        counts.read(&profile, &bytes, length);
    }
    counts.print_reading(out)
}

/// A script for the replay; prints the counts, false if something never came.
pub fn count_in_replay(script: &[u8], out: &mut dyn Write) -> io::Result<bool> {
    let mut counts = Counts::default();
    run_lines(lines_of(script), |line, step| match line {
        Line::Post { post, bits, bytes } => {
            if !["refused 1", "refused 2"].contains(&step.answer) {
                counts.read(&step.before.desk.profile, &bytes, bits);
            }
            counts.message(step, post, &bytes, bits);
        }
        Line::Profile(_) => counts.profile(step),
        _ => {}
    });
    // A line of another shape is no step.
    for line in lines_of(script) {
        let nine_pairs = line.split(|byte| *byte == b' ').count() == 22 + 18;
        if line.starts_with(b"profile ") && nine_pairs && read_script_line(line).is_none() {
            counts.count(Event::NinePairs);
        }
    }
    Ok(counts.print_reading(out)? & print(EVENTS, &counts.events, out)?)
}

impl Counts {
    fn count(&mut self, event: Event) {
        *self.events.entry(event).or_insert(0) += 1;
    }

    fn count_if(&mut self, came: bool, event: Event) {
        if came {
            self.count(event);
        }
    }

    fn read(&mut self, profile: &Profile, bytes: &[u8], length: usize) {
        for read in reads(profile, bytes, length) {
            *self.reads.entry(read).or_insert(0) += 1;
        }
        let is_3 = read(profile, bytes, length) == Err(Number(3));
        let came = match (length, is_3) {
            (2048, false) => Length::At2048,
            (2049, false) => Length::At2049,
            (2050..=4094, false) => Length::Between,
            (4095, false) => Length::At4095,
            (MOST_BITS, false) => Length::At4096,
            (4097, true) => Length::Over4096,
            (_, false) if bytes.len() == 512 => Length::Bytes512,
            _ => return,
        };
        *self.lengths.entry(came).or_insert(0) += 1;
    }

    fn print_reading(&self, out: &mut dyn Write) -> io::Result<bool> {
        Ok(print(READS, &self.reads, out)? & print(LENGTHS, &self.lengths, out)?)
    }
}
