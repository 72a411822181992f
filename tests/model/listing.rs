//! The listing program: for each input line its number and the message's name, or the refusal.
//! It works under the sample profile and takes any bytes as input.

use crate::line::{lines_of, read_line};
use crate::message::read;
use crate::profile::{sample, Profile};
use crate::refusal::Refusal::{self, Number};
use std::io::{self, Write};

pub fn list(input: &[u8], out: &mut dyn Write) -> io::Result<()> {
    let profile = sample();
    for (before, line) in lines_of(input).into_iter().enumerate() {
        writeln!(out, "{} {}", before + 1, answer(&profile, line))?;
    }
    Ok(())
}

fn answer(profile: &Profile, line: &[u8]) -> String {
    let outcome = match read_line(line) {
        Some((length, bytes)) => read(profile, &bytes, length),
        None => Err(Number(3)),
    };
    match outcome {
        Ok(message) => message.name().to_string(),
        Err(refusal) => refused(refusal),
    }
}

/// A 4 says where the message broke off; in which element is for the replay to say.
fn refused(refusal: Refusal) -> String {
    match refusal {
        Refusal::BrokeOff { position, .. } => format!("refused 4 at {position}"),
        Number(number) => format!("refused {number}"),
    }
}
