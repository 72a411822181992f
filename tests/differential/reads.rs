//! Drawn reads. A round takes one profile: a message cut at every bit, the same with each bit
//! flipped, messages with faults, messages that break off, odd lengths, damaged profiles, and value
//! areas of every size around the bound.

use crate::both::Both;
use crate::break_off;
use crate::damage;
use crate::dice::Dice;
use crate::draw;
use crate::fault;
use crate::interrogation_fault::{interrogation, longest};
use crate::layout::{profile_bytes, VALUE_BYTES};
use crate::profile::{sample, Meaning, Profile};
use crate::user_fault;
use crate::write::{bits_of, bytes_of};

/// Sizes of the value area: none, just within a field, the bound and its neighbours, more.
const ROOMS: [usize; 19] = [
    0, 1, 107, 121, 200, 228, 240, 241, 242, 243, 348, 349, 455, 469, 470, 471, 472, 473, 512,
];

const FAULTS_A_ROUND: usize = 300;
const BREAKS_A_ROUND: usize = 130;

pub fn profile(dice: &mut Dice) -> Profile {
    if dice.one_in(4) {
        sample()
    } else {
        draw::profile(dice)
    }
}

pub fn round(dice: &mut Dice, both: &mut Both) {
    let profile = profile(dice);
    let lent = profile_bytes(&profile);
    cut_short(dice, both, &profile, &lent);
    each_bit_flipped(dice, both, &profile, &lent);
    for _ in 0..FAULTS_A_ROUND {
        let bits = faulty(dice, &profile);
        let message = dressed(dice, &bits);
        let room = room(dice);
        both.read(&lent, &message, bits.len(), room);
    }
    for _ in 0..BREAKS_A_ROUND {
        let (message, length) = break_off::message(dice, &profile);
        let room = room(dice);
        both.read(&lent, &message, length, room);
    }
    let sound = fault::sound(dice, &profile);
    for room in ROOMS {
        both.read(&lent, &bytes_of(&sound), sound.len(), room);
    }
    for _ in 0..40 {
        odd_length(dice, both, &profile, &lent);
    }
    for _ in 0..80 {
        let damaged = damage::profile(dice, &lent);
        let bits = faulty(dice, &profile);
        let message = dressed(dice, &bits);
        let length = if dice.one_in(8) { 0 } else { bits.len() };
        let room = room(dice);
        both.read(&damaged, &message, length, room);
    }
}

/// Mostly just enough or a little more; now and then too small.
fn room(dice: &mut Dice) -> usize {
    match dice.below(8) {
        0 => dice.pick(&ROOMS),
        1 => VALUE_BYTES + dice.below(40),
        _ => VALUE_BYTES,
    }
}

/// A valid message at every bit length from 0 to its own, with or without the bytes left; now and
/// then the longest that the profile has.
fn cut_short(dice: &mut Dice, both: &mut Both, profile: &Profile, lent: &[u8]) {
    let bits = match dice.one_in(16) {
        true => long(dice, profile),
        false => fault::sound(dice, profile),
    };
    let whole = bytes_of(&bits);
    let bytes_stay = dice.one_in(2);
    for length in 0..=bits.len() {
        let bytes = if bytes_stay {
            whole.len()
        } else {
            (length + 7) / 8
        };
        let room = room(dice);
        both.read(lent, &whole[..bytes], length, room);
    }
}

fn each_bit_flipped(dice: &mut Dice, both: &mut Both, profile: &Profile, lent: &[u8]) {
    let mut bits = fault::sound(dice, profile);
    for place in 0..bits.len() {
        bits[place] = !bits[place];
        both.read(lent, &bytes_of(&bits), bits.len(), VALUE_BYTES);
        bits[place] = !bits[place];
    }
}

fn faulty(dice: &mut Dice, profile: &Profile) -> Vec<bool> {
    // some faults need a message with users, and not every profile has one
    let has_users = profile
        .meanings
        .iter()
        .any(|meaning| matches!(meaning, Meaning::List(_) | Meaning::FirstAndLast));
    let mut bits = match dice.below(21) {
        0 => fault::ss_type(dice, profile),
        1 => fault::pdu_type(dice, profile),
        2 | 3 if has_users => user_fault::range_ends(dice, profile),
        4 if has_users => user_fault::range(dice, profile),
        5 if has_users => user_fault::mask(dice, profile),
        6 => fault::kind(dice, profile),
        7 => fault::option(dice, profile),
        8 => fault::content(dice, profile),
        9 => {
            let mut bits = fault::sound(dice, profile);
            fault::leave_over(dice, &mut bits);
            bits
        }
        10 => {
            let mut bits = fault::sound(dice, profile);
            fault::flip(dice, &mut bits);
            bits
        }
        11 => fault::options(dice, profile),
        12 => fault::about_waiting_call(dice, profile),
        13 | 14 => user_fault::deactivation(dice, profile),
        15..=17 => interrogation(dice, profile),
        18 => long(dice, profile),
        _ => fault::sound(dice, profile),
    };
    if dice.one_in(6) {
        fault::touch(dice, &mut bits);
    }
    bits
}

/// As long as the profile allows, if it has a list at all.
fn long(dice: &mut Dice, profile: &Profile) -> Vec<bool> {
    match longest(dice, profile) {
        Some(message) => bits_of(profile, &message),
        None => fault::sound(dice, profile),
    }
}

/// The same bits with spare bits and further bytes of any value.
fn dressed(dice: &mut Dice, bits: &[bool]) -> Vec<u8> {
    let mut bytes = bytes_of(bits);
    if dice.one_in(2) {
        let spare = 8 * bytes.len() - bits.len();
        if let Some(last) = bytes.last_mut() {
            *last |= (dice.number(8) & ((1 << spare) - 1)) as u8;
        }
        let more = dice.pick(&[0, 0, 1, 2, 7, 8, 9, 60]);
        bytes.extend(dice.bytes(more));
    }
    bytes
}

/// More bits than the bytes hold, lengths around 4,096 and around 2,048, and those that are the
/// right one in their low 8, 16 or 32 bits.
fn odd_length(dice: &mut Dice, both: &mut Both, profile: &Profile, lent: &[u8]) {
    let bits = fault::sound(dice, profile);
    let mut bytes = bytes_of(&bits);
    let own = bits.len();
    let held = 8 * bytes.len();
    let length = match dice.below(6) {
        0 => held + dice.pick(&[0, 1, 2, 8, 9, 64]),
        1 => own + dice.pick(&[1 << 8, 1 << 16, 1 << 32, 1 << 63]),
        2 => dice.pick(&[0, usize::MAX, usize::MAX - 7, 1 << 61, 1 << 32, 1 << 16]),
        3 => {
            bytes.truncate(dice.below(bytes.len() + 1));
            own
        }
        _ => {
            let most = match bytes.len() > 250 {
                true => 4096,
                false => dice.pick(&[2048, 4096]),
            };
            let more = most / 8 - 3 + dice.below(6);
            if dice.one_in(2) {
                bytes.resize(more, 0);
            } else {
                let rest = dice.bytes(more - bytes.len());
                bytes.extend(rest);
            }
            match dice.below(4) {
                0 => own,
                1 => 8 * bytes.len() + dice.below(2),
                2 => dice.pick(&[most - 1, most, most + 1]),
                _ => most - 18 + dice.below(40),
            }
        }
    };
    let room = room(dice);
    both.read(lent, &bytes, length, room);
}
