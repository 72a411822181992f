//! Profiles and values in bytes with something changed, mostly one step off a rule. Some come out
//! good all the same.

use crate::dice::Dice;

const POSTS: usize = 22;
const SHARES: usize = 23;
const FAILURES: usize = 39;
/// Before request (viii).
const PROFILE_BEFORE: usize = 39;
const VALUE_BEFORE: usize = 241;

/// In a value: the marks of REQUEST's second to seventh option, and its numbers.
const MARKS: usize = 228;
const MNI: usize = 234;
const AREAS: usize = 237;
const SERVICES: usize = 239;

/// And INTERROGATE ACK's two types, and where its groups begin.
const TYPES: usize = 241;
const SOURCES: usize = 243;
const DESTINATIONS: usize = 349;
const RESTRICTED: usize = 455;

pub fn profile(dice: &mut Dice, good: &[u8]) -> Vec<u8> {
    let mut bytes = good.to_vec();
    match dice.below(16) {
        0 | 1 => flip(dice, &mut bytes),
        2 => any_byte(dice, &mut bytes),
        3 => length(dice, &mut bytes, PROFILE_BEFORE),
        4 => bytes[0] = dice.pick(&[63, 64, 65, 127, 128, 255]),
        5 => bytes[4] = dice.pick(&[126, 127, 128, 129, 255]),
        6 => bytes[5] = dice.pick(&[126, 127, 128, 129, 255]),
        7 => bytes[6 + dice.below(16)] = dice.pick(&[0, 1, 14, 15, 16, 17, 18, 19, 32, 255]),
        8 => bytes[POSTS] = dice.pick(&[0, 1, 7, 8, 9, 16, 255]),
        9 => {
            // one post more or fewer, whose share is not what it should be
            let posts = bytes[POSTS];
            bytes[POSTS] = if dice.one_in(2) { posts + 1 } else { posts - 1 };
        }
        10 => bytes[SHARES + 2 * dice.below(8)] = dice.pick(&[0, 1, 30, 31, 32, 33, 255]),
        11 => bytes[SHARES + 1 + 2 * dice.below(8)] = dice.pick(&[0, 1, 31, 32, 33, 34, 255]),
        12 => {
            // a reserved number around its ceiling
            let post = dice.below(usize::from(bytes[POSTS]));
            let ceiling = bytes[SHARES + 1 + 2 * post];
            bytes[SHARES + 2 * post] = dice.pick(&[ceiling - 1, ceiling, ceiling + 1]);
        }
        13 | 14 => bytes[FAILURES + dice.below(2)] = dice.pick(&[0, 6, 7, 8, 9, 15, 128, 255]),
        _ => reserved_sum(dice, &mut bytes),
    }
    bytes
}

/// Eight posts with 31, 32 or 33 places reserved among them, or 256 more than those.
fn reserved_sum(dice: &mut Dice, bytes: &mut [u8]) {
    bytes[POSTS] = 8;
    let over = dice.pick(&[0, 224]);
    let mut left = 30 + dice.below(4) + over;
    for post in 0..8 {
        let reserved = if post == 7 {
            left.min(255)
        } else {
            dice.below(left.min(if over == 0 { 10 } else { 32 }) + 1)
        };
        left -= reserved;
        bytes[SHARES + 2 * post] = reserved as u8;
        bytes[SHARES + 1 + 2 * post] = 32;
    }
}

/// A value with one field at an edge, or any of its bits or bytes changed.
pub fn value(dice: &mut Dice, good: &[u8]) -> Vec<u8> {
    let mut bytes = good.to_vec();
    let place = match dice.below(3) {
        0 => 0,
        1 => 1,
        _ => dice.below(15),
    };
    let address = dice.pick(&[2, 123, SOURCES + 1, DESTINATIONS + 1]) + 7 * place;
    match dice.below(25) {
        0 => flip(dice, &mut bytes),
        1 => any_byte(dice, &mut bytes),
        2 => bytes[0] = dice.number(5) as u8,
        3 => bytes[1] = dice.below(18) as u8,
        4 => bytes[122] = dice.below(18) as u8,
        5 => bytes[107] = dice.pick(&[0, 1, 1, 2, 255]),
        6 => bytes[108 + dice.below(8)] ^= 1 << dice.below(8),
        7 => bytes[116] = dice.pick(&[0, 1, 2, 255]),
        8 => bytes[117] = dice.pick(&[0, 1, 7, 8, 127, 128, 255]),
        9 => bytes[118] = dice.pick(&[0, 1, 31, 32, 255]),
        10 => bytes[119] = dice.pick(&[0, 1, 63, 64, 255]),
        11 => bytes[121] = dice.pick(&[0, 1, 1, 2, 255]),
        12 => bytes[address] = dice.pick(&[0, 1, 2, 3, 255]),
        13 => bytes[address + 4 + dice.below(3)] = dice.pick(&[0, 1, 255]),
        14 => {
            // range ends a step apart, either way, or as far as is allowed and one more
            let first = bytes[address + 3];
            let distance = dice.pick(&[0, 1, 2, 62, 63, 64, 65, 254, 255]);
            if address + 10 < bytes.len() {
                bytes[address + 10] = first.wrapping_add(distance);
            }
        }
        15 => bytes[MARKS + dice.below(6)] = dice.pick(&[0, 1, 1, 2, 255]),
        16 => bytes[MNI + dice.below(3)] = dice.pick(&[0, 1, 255]),
        17 => bytes[AREAS + dice.below(2)] = dice.pick(&[0, 1, 15, 16, 255]),
        18 => bytes[SERVICES + dice.below(2)] = dice.pick(&[0, 1, 3, 4, 255]),
        19 => bytes[TYPES + dice.below(2)] = dice.pick(&[0, 1, 1, 2, 255]),
        20 => bytes[dice.pick(&[SOURCES, DESTINATIONS, RESTRICTED])] = dice.below(18) as u8,
        21 => bytes[RESTRICTED + 1 + place] = dice.pick(&[0, 1, 14, 15, 16, 255]),
        22 => {
            // areas a step apart, either way
            let first = bytes[RESTRICTED + 1];
            bytes[RESTRICTED + 2] =
                dice.pick(&[first, first.wrapping_sub(1), first.wrapping_add(1)]);
        }
        23 => {
            // a mark without what it marks, or the other way round
            let mark = dice.pick(&[121, MARKS, MARKS + 1, MARKS + 2]);
            bytes[mark] ^= 1;
        }
        _ => length(dice, &mut bytes, VALUE_BEFORE),
    }
    bytes
}

fn flip(dice: &mut Dice, bytes: &mut [u8]) {
    bytes[dice.below(bytes.len())] ^= 1 << dice.below(8);
}

fn any_byte(dice: &mut Dice, bytes: &mut [u8]) {
    bytes[dice.below(bytes.len())] = dice.number(8) as u8;
}

/// Another length, often by one byte, or the one that it was before.
fn length(dice: &mut Dice, bytes: &mut Vec<u8>, before: usize) {
    let own = bytes.len();
    let other = match dice.below(10) {
        0 => 0,
        1 => 1,
        2 => 2 * own,
        3 => own + dice.below(100),
        4 => dice.below(own),
        5 => own + 1,
        6 | 7 => before,
        _ => own - 1,
    };
    let more = dice.pick(&[0, 0, 255]);
    bytes.resize(other, more);
}
