//! Script lines of another shape, mostly one step off a good one; some steps stay within it.

use crate::dice::Dice;
use crate::odd::with_byte;
use crate::profile::sample;

/// Lines at the edges of the numbers, good and one too far.
const EDGES: [&str; 63] = [
    "record 127 0 0 0 0 0",
    "record 256 1 1 1 0 0",
    "record 0 2 1 1 0 0",
    "record 0 1 1 1 0 2",
    "record 0 0 1 1 255 0",
    "record 0 1 1 1 256 0",
    "record 0 0 4294967295 4294967295 0 1",
    "record 0 0 4294967296 0 0 1",
    "record 0 1 1 1 0",
    "record 0 1 1 1 0 0 0",
    "record 4294967296 1 1 1 0 0",
    "place 31 5 0",
    "place 32 5 0",
    "place 0 65535 0",
    "place 0 65536 0",
    "place 0 5 255",
    "place 0 5 256",
    "place 0 5",
    "unplace 31",
    "unplace 32",
    "unplace",
    "second 31 0",
    "second 32 0",
    "second 0 255",
    "second 0 256",
    "second 0",
    "second 0 0 0",
    "cause 31 0",
    "cause 32 0",
    "cause 0 31",
    "cause 0 255",
    "cause 0 256",
    "cause 0",
    "cause 0 0 0",
    "setup 1 0 2 0 5 4294967295",
    "setup 1 0 2 0 5 4294967296",
    "setup 1 0 2 0",
    "setup 1 0 2 0 5 0 0",
    "out 0",
    "out 300",
    "out 301",
    "out",
    "dump 0",
    "dump ",
    "post 0",
    "post 0 11 25a0",
    "post 0 11 25A",
    "post 0 11 ",
    "post 0 11 25A0 25A0",
    "cancel 5 5",
    "reject 0",
    "shares",
    "shares 2",
    "shares 2 30 4",
    "shares 2 30 4 4294967296",
    "shares 4294967295 4294967295",
    "shares 0 0 0 0 0 0 0 0 0 0 0 0 0 0 0 0",
    "shares 0 0 0 0 0 0 0 0 0 0 0 0 0 0 0 0 0",
    "shares 0 0 0 0 0 0 0 0 0 0 0 0 0 0 0 0 0 0",
    "profile 9 0 1 2 16 1 2 3 0 0 0 0 0 0 0 0 0 0 0 17 0 1 2",
    "profile 9 0 1 2 16 1 2 3 0 0 0 0 0 0 0 0 0 0 0 17 7 1 1 1 1 1 1 1 1 1 1 1 1 1 1 1 1 1 2",
    "profile 9 0 1 2 16 1 2 3 0 0 0 0 0 0 0 0 0 0 0 17 9 1 1 1 1 1 1 1 1 1 1 1 1 1 1 1 1 1 2",
    "profile 9 0 1 2 16 1 2 3 0 0 0 0 0 0 0 0 0 0 0 17 9 1 1 1 1 1 1 1 1 1 1 1 1 1 1 1 1 1 1 1 2",
];

/// Numbers that are of the shape, or nearly.
const NUMBERS: [&str; 12] = [
    "4294967295",
    "4294967296",
    "18446744073709551616",
    "0000000001",
    "00000000001",
    "00",
    "-1",
    "+1",
    "1.0",
    "0x1",
    "1_0",
    "",
];

/// Bytes that other readers strip, or that stand next to the digits and letters that count.
const NEAR: [u8; 14] = [
    b' ', b'\t', b'\r', 0x00, 0x0B, 0x1A, 0x7F, 0xA0, 0xFF, b'/', b':', b'@', b'G', b'a',
];

pub fn line(dice: &mut Dice, good: &[u8]) -> Vec<u8> {
    let line = match dice.below(20) {
        0..=4 => dice.pick(&EDGES).as_bytes().to_vec(),
        5..=8 => with_number(dice, good),
        9..=11 => with_byte(dice, &NEAR, good),
        12 => [good, dice.pick(&[&b" "[..], b"\r", b" 0", b"\0"])].concat(),
        13 => [b" ", good].concat(),
        14 => good.to_ascii_uppercase(),
        15 => good[..dice.below(good.len())].to_vec(),
        16 => long_hex(dice),
        17 => pairs(dice),
        18 => {
            let count = dice.below(40);
            dice.bytes(count)
        }
        _ => over_long(dice, good),
    };
    line.into_iter().filter(|byte| *byte != b'\n').collect()
}

/// One word of the line put aside for a number that may or may not stand there.
fn with_number(dice: &mut Dice, good: &[u8]) -> Vec<u8> {
    let mut words: Vec<&[u8]> = good.split(|byte| *byte == b' ').collect();
    let chosen = dice.below(words.len());
    words[chosen] = dice.pick(&NUMBERS).as_bytes();
    words.join(&b' ')
}

/// 1,022 to 1,026 hex digits, of which 1,024 are the most; or around 512, which were the most before
/// request (viii).
fn long_hex(dice: &mut Dice) -> Vec<u8> {
    let digits = dice.pick(&[512, 1024, 1024]) - 2 + dice.below(5);
    [b"post 0 11 25A0", &vec![b'0'; digits - 4][..]].concat()
}

/// The sample profile with 0 to 11 pairs, or half a one, and POSTS to match, one less, or 2.
fn pairs(dice: &mut Dice) -> Vec<u8> {
    let sample = super::profiles::line(&sample());
    let words: Vec<&[u8]> = sample.split(|byte| *byte == b' ').collect();
    let numbers = dice.below(24);
    let posts = match dice.below(3) {
        0 => numbers / 2,
        1 => (numbers / 2).saturating_sub(1),
        _ => 2,
    };
    let mut line = words[..21].join(&b' ');
    line.extend(format!(" {posts}").as_bytes());
    for _ in 0..numbers {
        line.extend(b" 1");
    }
    line
}

fn over_long(dice: &mut Dice, good: &[u8]) -> Vec<u8> {
    let more = match dice.below(4) {
        0 => 70_000,
        _ => 1 + dice.below(3_000),
    };
    match dice.below(3) {
        0 => [good, &vec![b' '; more][..]].concat(),
        1 => [good, &vec![b'0'; more][..]].concat(),
        _ => [&good[..], &b" 1".repeat(more / 2)[..]].concat(),
    }
}
