//! Drawn writes. A round takes one profile: a valid value into areas of every size around the
//! bound, with fields at their edges, bits flipped, parts of another value, the type of another
//! message about users, and under damaged profiles.

use crate::both::Both;
use crate::damage;
use crate::dice::Dice;
use crate::draw;
use crate::interrogation_fault::longest;
use crate::layout::{profile_bytes, value_bytes};
use crate::message::Message;
use crate::profile::Profile;
use crate::reads;
use crate::value::flat;
use crate::write::{bits_of, bytes_of};

/// A message has at most 3,119 bits, so 390 bytes are enough for any.
const ENOUGH: usize = 390;

pub fn round(dice: &mut Dice, both: &mut Both) {
    let profile = reads::profile(dice);
    let lent = profile_bytes(&profile);
    let message = message(dice, &profile);
    let value = value_bytes(&flat(&message));
    let own = bytes_of(&bits_of(&profile, &message)).len();

    for room in own.saturating_sub(3)..own + 4 {
        both.write(&lent, &value, room);
    }
    for room in [0, 1, 100, 191, 256, 300, ENOUGH, 512] {
        both.write(&lent, &value, room);
    }
    for _ in 0..120 {
        let damaged = damage::value(dice, &value);
        let room = room(dice, own);
        both.write(&lent, &damaged, room);
    }
    for _ in 0..20 {
        let twice = damage::value(dice, &value);
        if !twice.is_empty() && twice.len() == value.len() {
            let damaged = damage::value(dice, &twice);
            let room = room(dice, own);
            both.write(&lent, &damaged, room);
        }
    }
    for _ in 0..20 {
        let other = value_bytes(&flat(&draw::message(dice, &profile)));
        let mixed = mix(dice, &value, &other);
        let room = room(dice, own);
        both.write(&lent, &mixed, room);
    }
    for _ in 0..10 {
        let mut other_type = value.clone();
        other_type[0] = dice.pick(&[2, 3, 4, 5, 6, 7, 9, 9]);
        let room = room(dice, own);
        both.write(&lent, &other_type, room);
    }
    for _ in 0..20 {
        let damaged = damage::profile(dice, &lent);
        let value = if dice.one_in(2) {
            value.clone()
        } else {
            damage::value(dice, &value)
        };
        let room = room(dice, own);
        both.write(&damaged, &value, room);
    }
    if dice.one_in(24) {
        each_bit_flipped(both, &lent, &value);
    }
}

/// INTERROGATE ACK, which has most to say, as often as all others together.
fn message(dice: &mut Dice, profile: &Profile) -> Message {
    let ack = match dice.below(8) {
        0 => longest(dice, profile),
        1..=3 => draw::about_users(dice, profile, 9),
        _ => None,
    };
    ack.unwrap_or_else(|| draw::message(dice, profile))
}

/// Mostly enough; now and then around what the message needs, or nothing.
fn room(dice: &mut Dice, own: usize) -> usize {
    match dice.below(8) {
        0 => own - 1,
        1 => own,
        2 => dice.below(own + 2),
        _ => ENOUGH,
    }
}

/// The first bytes of one value and the others of another, or the PDU type of another.
fn mix(dice: &mut Dice, one: &[u8], other: &[u8]) -> Vec<u8> {
    let mut mixed = one.to_vec();
    let from = dice.pick(&[
        1, 2, 9, 16, 107, 108, 116, 117, 118, 119, 121, 122, 123, 228, 229, 230, 231, 234, 237,
        239, 240, 241, 242, 243, 244, 251, 349, 350, 357, 455, 456, 457,
    ]);
    mixed[from..].copy_from_slice(&other[from..]);
    mixed
}

fn each_bit_flipped(both: &mut Both, lent: &[u8], value: &[u8]) {
    let mut flipped = value.to_vec();
    for place in 0..8 * value.len() {
        flipped[place / 8] ^= 1 << (place % 8);
        both.write(lent, &flipped, ENOUGH);
        flipped[place / 8] ^= 1 << (place % 8);
    }
}
