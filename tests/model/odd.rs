//! Lines of another shape than the listing asks for, drawn by the dice, mostly one step off.
//! The good line that each starts from is given; some changes leave it good.

use crate::dice::Dice;

/// Bytes next to the digits and letters that count, and bytes that other readers strip.
const NEAR: [u8; 24] = [
    b'/', b':', b'@', b'G', b'`', b'a', b'f', b'g', b'A', b'F', b'+', b'-', b'.', b',', b'_',
    b'\t', b'\r', 0x00, 0x0B, 0x0C, 0x1A, 0x7F, 0xA0, 0xFF,
];

const MOST_LONG: usize = 20_000;
const VERY_LONG: usize = 70_000;

pub fn line(dice: &mut Dice, good: &[u8]) -> Vec<u8> {
    let space = good.iter().position(|byte| *byte == b' ').unwrap_or(0);
    let (length, hex) = (&good[..space], &good[space + 1..]);
    match dice.below(32) {
        0..=5 => with_byte(dice, &NEAR, good),
        6 => [good, b"\r"].concat(),
        7 => Vec::new(),
        8 => [length, hex].concat(),
        9 => spaced(dice, length, hex),
        10 => [good, b" "].concat(),
        11 => [b" ", good].concat(),
        12 | 13 => good.to_ascii_lowercase(),
        14 => good[..good.len() - 1].to_vec(),
        15 => [good, b"0"].concat(),
        16..=19 => [&wrong_length(dice, length)[..], b" ", hex].concat(),
        20 => hex.to_vec(),
        21 => [length, b" "].concat(),
        22 => length.to_vec(),
        23 => good.repeat(2),
        24..=26 => hex_near_most(dice, length, hex),
        27 | 28 => {
            let count = 1 + dice.below(40);
            dice.bytes(count)
        }
        29 | 30 => with_byte(dice, &NEAR, b"11 25A0"),
        _ => over_long(dice, good),
    }
}

/// One byte put in or put over another, of all 256 or of those near the ones that count.
pub fn with_byte(dice: &mut Dice, near: &[u8], good: &[u8]) -> Vec<u8> {
    let byte = if dice.one_in(2) {
        dice.pick(near)
    } else {
        dice.number(8) as u8
    };
    let mut line = good.to_vec();
    if dice.one_in(2) {
        line.insert(dice.below(good.len() + 1), byte);
    } else {
        line[dice.below(good.len())] = byte;
    }
    line
}

fn spaced(dice: &mut Dice, length: &[u8], hex: &[u8]) -> Vec<u8> {
    let between: &[u8] = dice.pick(&[
        &b"  "[..],
        b"\t",
        b" \t",
        b"\t ",
        b",",
        b"\xC2\xA0",
        b" 0x",
        b"   ",
    ]);
    [length, between, hex].concat()
}

/// Lengths that are too long or no decimal number, some equal to the right one modulo 2^16,
/// 2^32 or 2^64.
fn wrong_length(dice: &mut Dice, length: &[u8]) -> Vec<u8> {
    let digits = String::from_utf8_lossy(length).into_owned();
    let number: u128 = digits.parse().unwrap_or(0);
    match dice.below(9) {
        0 => format!("{number:05}"),
        1 => format!("{number:040}"),
        2 => format!("{}", number + (1 << 16)),
        3 => format!("{}", number + (1 << 32)),
        4 => format!("{}", number + (1 << 64)),
        5 => format!("+{digits}"),
        6 => format!("-{digits}"),
        7 => format!("{}", 10_000 + dice.below(90_000)),
        _ => format!("{number:X}h"),
    }
    .into_bytes()
}

/// 1,020 to 1,028 hex digits, odd numbers among them: at most 1,024 are allowed. Or around the 512
/// that were allowed before request (viii).
fn hex_near_most(dice: &mut Dice, length: &[u8], hex: &[u8]) -> Vec<u8> {
    let mut digits = hex.to_vec();
    let most = dice.pick(&[512, 1024, 1024]);
    digits.resize(most - 4 + dice.below(9), b'0');
    [length, b" ", &digits[..]].concat()
}

/// A line of up to 20,000 bytes, or now and then of 70,000.
fn over_long(dice: &mut Dice, good: &[u8]) -> Vec<u8> {
    let count = if dice.one_in(10) {
        VERY_LONG
    } else {
        good.len() + 1 + dice.below(MOST_LONG - good.len())
    };
    let more = count - good.len();
    match dice.below(6) {
        0 => [&vec![b'0'; more][..], good].concat(),
        1 => [good, &vec![b'0'; more][..]].concat(),
        2 => [good, &vec![b' '; more][..]].concat(),
        3 => [&vec![b' '; more][..], good].concat(),
        4 => vec![b'7'; count],
        _ => [good, &dice.bytes(more)[..]].concat(),
    }
}
