//! Lines of input, and the shape of one of the listing: a bit length, one space, hex digits.
//! Lines are bytes, not text: any byte may come.

use crate::hex::{hex_of, read_hex};

const MOST_LENGTH_DIGITS: usize = 4;
const MOST_HEX_DIGITS: usize = 1024;

/// LF ends a line. What follows the last LF is a line too, unless it is empty.
pub fn lines_of(input: &[u8]) -> Vec<&[u8]> {
    let mut lines: Vec<&[u8]> = input.split(|byte| *byte == b'\n').collect();
    if lines.last().map_or(false, |rest| rest.is_empty()) {
        lines.pop();
    }
    lines
}

/// The bit length and bytes that a line gives, or nothing if it has another shape.
pub fn read_line(line: &[u8]) -> Option<(usize, Vec<u8>)> {
    let space = line.iter().position(|byte| *byte == b' ')?;
    let length = read_length(&line[..space])?;
    let hex = &line[space + 1..];
    if hex.len() > MOST_HEX_DIGITS {
        return None;
    }
    Some((length, read_hex(hex)?))
}

fn read_length(digits: &[u8]) -> Option<usize> {
    if digits.is_empty() || digits.len() > MOST_LENGTH_DIGITS {
        return None;
    }
    let mut length = 0;
    for digit in digits {
        if !digit.is_ascii_digit() {
            return None;
        }
        length = 10 * length + usize::from(digit - b'0');
    }
    Some(length)
}

/// The line for a bit length and bytes; of the right shape up to 9,999 bits and 512 bytes.
pub fn line_of(length: usize, bytes: &[u8]) -> Vec<u8> {
    format!("{length} {}", hex_of(bytes)).into_bytes()
}
