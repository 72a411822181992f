//! The rounds: each row of the table of worked values is written, read and written again.
//! What is printed is the whole area, so that bytes touched past the message would show.

use crate::hex::hex_of;
use crate::message::read;
use crate::profile::{sample, Profile};
use crate::refusal::Refusal;
use crate::table::{rows, Row};
use crate::value::flat;
use crate::write::write;
use std::io::{self, Write};

pub fn print_rounds(out: &mut dyn Write) -> io::Result<()> {
    let profile = sample();
    for (before, row) in rows().iter().enumerate() {
        print_row(&profile, before + 1, row, out)?;
    }
    Ok(())
}

fn print_row(profile: &Profile, number: usize, row: &Row, out: &mut dyn Write) -> io::Result<()> {
    let mut area = vec![0xAA; row.area];
    match write(profile, &row.value, &mut area) {
        Err(refusal) => writeln!(
            out,
            "{number} refused {} {}",
            refusal.number(),
            hex_of(&area)
        ),
        Ok(length) => match again(profile, &area, length) {
            Err(refusal) => writeln!(out, "{number} read back: refused {}", refusal.number()),
            Ok((name, again_length, again_area)) => {
                writeln!(out, "{number} {name} {length} {}", hex_of(&area))?;
                writeln!(out, "{number} again {again_length} {}", hex_of(&again_area))
            }
        },
    }
}

/// The name of the message that stands in the area, and the bit length and area of its value
/// written into a second area of the same size.
fn again(
    profile: &Profile,
    area: &[u8],
    length: usize,
) -> Result<(&'static str, usize, Vec<u8>), Refusal> {
    let message = read(profile, area, length)?;
    let mut second = vec![0x55; area.len()];
    let again = write(profile, &flat(&message), &mut second)?;
    Ok((message.name(), again, second))
}
