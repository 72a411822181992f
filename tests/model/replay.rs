//! The replay program: a desk run from a script, one call a line, each answered in words.
//! The sample profile is in force at the start, with no record lent and 300 bytes of output.

use crate::desk::{Answer, Desk, Lent, State};
use crate::hex::hex_of;
use crate::line::lines_of;
use crate::places::Call;
use crate::profile::sample;
use crate::records::Record;
use crate::refusal::Refusal::{self, Number};
use crate::script::{read_script_line, Line, MOST_OUTPUT};
use std::io::{self, Write};

/// The desk and what is lent to it from line to line.
#[derive(Clone)]
pub struct Replay {
    pub desk: Desk,
    pub records: Vec<Record>,
    pub output_bytes: usize,
}

pub fn replay(script: &[u8], out: &mut dyn Write) -> io::Result<()> {
    let mut replay = Replay::new();
    for (before, line) in lines_of(script).into_iter().enumerate() {
        if let Some(words) = replay.run(line) {
            writeln!(out, "{} {words}", before + 1)?;
        }
    }
    Ok(())
}

impl Replay {
    pub fn new() -> Self {
        Replay {
            desk: Desk::open(sample()).expect("the sample profile keeps the rules"),
            records: Vec::new(),
            output_bytes: MOST_OUTPUT,
        }
    }

    /// Runs one line and gives what follows the line's number, if anything is printed.
    pub fn run(&mut self, line: &[u8]) -> Option<String> {
        let line = match read_script_line(line) {
            Some(line) => line,
            None => return Some("not understood".to_string()),
        };
        // Each call finds AA in every byte of the output area.
        let mut output = vec![0xAA; self.output_bytes];
        let lent = Lent {
            records: &mut self.records,
            output: &mut output,
        };
        let outcome = match line {
            Line::Profile(profile) => {
                return self.open(profile.ok_or(Number(1)).and_then(Desk::open))
            }
            Line::Record { number, record } => return self.set_record(number, record),
            Line::Out { bytes } => {
                self.output_bytes = bytes;
                return None;
            }
            Line::Place { place, call } => {
                self.desk.places[place] = Some(call);
                return None;
            }
            Line::Unplace { place } => {
                self.desk.places[place] = None;
                return None;
            }
            Line::Second { place, post } => return self.set_second(place, post),
            Line::Cause { place, cause } => return self.set_cause(place, cause),
            Line::Dump => return Some(self.dump()),
            Line::Post { post, bits, bytes } => self.desk.message(lent, post, &bytes, bits),
            Line::SetUp {
                caller,
                called,
                identifier,
                cause,
            } => self.desk.set_up(lent, caller, called, identifier, cause),
            Line::Reject { post, identifier } => self.desk.reject(lent, post, identifier),
            Line::Cancel { identifier } => self.desk.cancel(lent, identifier),
            Line::Shares(rows) => self.desk.change_shares(&rows),
        };
        Some(words(outcome, &output))
    }

    /// A refused profile leaves the desk that is there.
    fn open(&mut self, opened: Result<Desk, Refusal>) -> Option<String> {
        match opened {
            Ok(desk) => {
                self.desk = desk;
                None
            }
            Err(refusal) => Some(refused(refusal)),
        }
    }

    fn set_record(&mut self, number: usize, record: Record) -> Option<String> {
        if number >= self.records.len() {
            self.records.resize(number + 1, Record::default());
        }
        self.records[number] = record;
        None
    }

    /// A free place stays free, and keeps nothing for the call that takes it next.
    fn set_second(&mut self, place: usize, post: u32) -> Option<String> {
        if let Some(call) = &mut self.desk.places[place] {
            call.second = Some(post);
        }
        None
    }

    /// As with a second post: a free place keeps nothing.
    fn set_cause(&mut self, place: usize, cause: u32) -> Option<String> {
        if let Some(call) = &mut self.desk.places[place] {
            call.cause = cause;
        }
        None
    }

    fn dump(&self) -> String {
        let mut words = vec!["dump".to_string()];
        for (place, call) in self.desk.places.iter().enumerate() {
            if let Some(call) = call {
                words.push(format!("{place}:{}", call_words(call)));
            }
        }
        words.push("|".to_string());
        for (number, record) in self.records.iter().enumerate() {
            if record.in_use {
                words.push(format!(
                    "{number}:{}:{}:{}:{}",
                    record.ssi,
                    record.extension,
                    record.post,
                    u32::from(record.active)
                ));
            }
        }
        words.join(" ")
    }
}

/// ID:POST, with `>SECOND` where there is a second post and `!CAUSE` where the cause isn't 0.
fn call_words(call: &Call) -> String {
    let mut words = format!("{}:{}", call.identifier, call.post);
    if let Some(second) = call.second {
        words.push_str(&format!(">{second}"));
    }
    if call.cause != 0 {
        words.push_str(&format!("!{}", call.cause));
    }
    words
}

fn words(outcome: Result<Answer, Refusal>, output: &[u8]) -> String {
    let hex = |at: usize, bits: usize| hex_of(&output[at..at + (bits + 7) / 8]);
    match outcome {
        Err(refusal) => refused(refusal),
        Ok(Answer::Acks { bits }) => {
            let mut words = vec!["acks".to_string(), bits.len().to_string()];
            words.extend(bits.iter().map(usize::to_string));
            for (number, bits) in bits.iter().enumerate() {
                words.push(hex(100 * number, *bits));
            }
            words.join(" ")
        }
        Ok(Answer::State { state, bits }) => {
            format!("state {} {bits} {}", state_word(state), hex(0, bits))
        }
        Ok(Answer::Free) => "free".to_string(),
        Ok(Answer::Admitted {
            post,
            place,
            intercepted_bits,
            request_bits,
        }) => {
            let (intercepted, request) = (hex(0, intercepted_bits), hex(100, request_bits));
            format!("admitted {post} {place} {intercepted} {request}")
        }
        Ok(Answer::Proceed { bits }) => format!("proceed {}", hex(0, bits)),
        Ok(Answer::Moved { post, bits }) => format!("moved {post} {}", hex(0, bits)),
        Ok(Answer::Diverted { bits }) => format!("diverted {}", hex(0, bits)),
        Ok(Answer::Rejected { bits }) => format!("rejected {}", hex(0, bits)),
        Ok(Answer::Cancelled { post, bits }) => format!("cancelled {post} {}", hex(0, bits)),
        Ok(Answer::Taken) => "taken".to_string(),
    }
}

/// A 4 says where the message broke off, and in which element.
pub fn refused(refusal: Refusal) -> String {
    match refusal {
        Refusal::BrokeOff { position, element } => {
            format!("refused 4 at {position} {}", element.name())
        }
        Number(number) => format!("refused {number}"),
    }
}

fn state_word(state: State) -> &'static str {
    match state {
        State::NoRecord => "no-record",
        State::OtherPost => "other-post",
        State::Active => "active",
        State::NotActive => "not-active",
    }
}
