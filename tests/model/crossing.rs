//! The bytes that cross to C: the sample profile's, and the value's of each message of the input.
//! A message that is refused, or that comes out otherwise when its value is written, is said so.

use crate::hex::hex_of;
use crate::interface::{cad_read, cad_write};
use crate::layout::{profile_bytes, VALUE_BYTES};
use crate::line::{lines_of, read_line};
use crate::profile::sample;
use std::io::{self, Write};

pub fn cross(input: &[u8], out: &mut dyn Write) -> io::Result<()> {
    let profile = profile_bytes(&sample());
    writeln!(out, "profile {}", hex_of(&profile))?;
    for line in lines_of(input) {
        let line_text = String::from_utf8_lossy(line);
        writeln!(out, "{line_text} {}", answer(&profile, line))?;
    }
    Ok(())
}

fn answer(profile: &[u8], line: &[u8]) -> String {
    let (length, bytes) = match read_line(line) {
        Some(shaped) => shaped,
        None => return "of another shape".to_string(),
    };
    let mut value = [0; VALUE_BYTES];
    let refusal = cad_read(profile, &bytes, length, &mut value);
    if refusal != 0 {
        return format!("refused {refusal}");
    }
    let mut written = vec![0; bytes.len()];
    let mut bits = 0;
    let refusal = cad_write(profile, &value, &mut written, &mut bits);
    if refusal != 0 || bits != length || written != bytes {
        return "written otherwise".to_string();
    }
    hex_of(&value)
}
