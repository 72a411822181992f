//! Messages with a fault in their bits, one function for each sort of fault, drawn by the dice.
//! Some come out valid all the same: they stand on the good side of an edge. Faults in users and
//! dispatchers are in `user_fault`.

use crate::dice::Dice;
use crate::draw;
use crate::message::{Address, Message};
use crate::profile::Profile;
use crate::request::Options;
use crate::user_fault::groups_of;
use crate::write::{bits_of, elements};

const NOT_CARRIED: [u32; 2] = [6, 7];
const CARRIED: [u32; 15] = [2, 3, 4, 5, 8, 9, 10, 11, 12, 13, 14, 15, 16, 17, 18];

pub fn sound(dice: &mut Dice, profile: &Profile) -> Vec<bool> {
    bits_of(profile, &draw::message(dice, profile))
}

/// Another SS type, often one bit away from the profile's.
pub fn ss_type(dice: &mut Dice, profile: &Profile) -> Vec<bool> {
    let mut bits = sound(dice, profile);
    if dice.one_in(2) {
        let place = dice.below(6);
        bits[place] = !bits[place];
    } else {
        let other = dice.number(6);
        bits.splice(0..6, elements(&[(other, 6)]));
    }
    bits
}

/// Any of the 32 PDU types before the elements of one message.
pub fn pdu_type(dice: &mut Dice, profile: &Profile) -> Vec<bool> {
    let mut bits = sound(dice, profile);
    let other = dice.number(5);
    bits.splice(6..11, elements(&[(other, 5)]));
    bits
}

/// Any kind, with or without the extension that belongs to it, and often nothing after it.
pub fn kind(dice: &mut Dice, profile: &Profile) -> Vec<bool> {
    let mut message = draw::message(dice, profile);
    let mut addresses = addresses_of(&mut message);
    if addresses.is_empty() {
        let mut bits = elements(&[(profile.ss_type, 6), (8, 5), (dice.number(2), 2)]);
        let rest = dice.pick(&[0, 1, 23, 24, 47, 48]);
        bits.extend(dice.bits(rest));
        return bits;
    }
    let chosen = dice.below(addresses.len());
    addresses[chosen].kind = dice.pick(&[0, 0, 3, 3, 1, 2]);
    bits_of(profile, &message)
}

/// O-bit 1, P-bit 0 or 1, and then nothing, a bit, or an address's worth of bits, in a message of
/// one option.
pub fn option(dice: &mut Dice, profile: &Profile) -> Vec<bool> {
    let mut message = draw::message(dice, profile);
    match &mut message {
        Message::Activate { dispatchers, .. } => *dispatchers = None,
        Message::Intercepted { dispatcher, .. }
        | Message::Diverted { dispatcher, .. }
        | Message::Rejected { dispatcher, .. } => *dispatcher = None,
        _ => {
            message = Message::Intercepted {
                cause: dice.number(5),
                dispatcher: None,
            };
        }
    }
    let mut bits = bits_of(profile, &message);
    let o_bit = bits.len() - 1;
    bits[o_bit] = true;
    if !dice.one_in(4) {
        let p_bit = dice.one_in(4);
        bits.push(p_bit);
        let rest = dice.pick(&[0, 1, 2, 4, 26, 30, 50]);
        bits.extend(dice.bits(rest));
    }
    bits
}

/// REQUEST or REJECTED with an O-bit of 1 and all P-bits 0, or with one P-bit that has nothing
/// behind it. Some end among the P-bits, or have bits after the last one.
pub fn options(dice: &mut Dice, profile: &Profile) -> Vec<bool> {
    let header = [(profile.ss_type, 6)];
    let request = [(11, 5), (dice.number(14), 14), (dice.number(5), 5), (1, 1)];
    let rejected = [(18, 5), (dice.number(5), 5), (1, 1)];
    let (before, p_bits): (&[(u32, usize)], usize) = match dice.below(4) {
        0 => (&rejected, 1),
        _ => (&request, 7),
    };
    let mut bits = elements(&[&header, before].concat());
    for _ in 0..p_bits {
        bits.push(dice.one_in(30));
    }
    match dice.below(4) {
        0 => bits.truncate(bits.len() - 1 - dice.below(p_bits)),
        1 => leave_over(dice, &mut bits),
        _ => {}
    }
    bits
}

/// A message about a waiting call, a bit short or a bit too long, cut anywhere behind its type, or
/// with a kind that is refused.
pub fn about_waiting_call(dice: &mut Dice, profile: &Profile) -> Vec<bool> {
    let mut message = draw::about_waiting_call(dice, profile);
    let mut addresses = addresses_of(&mut message);
    if !addresses.is_empty() && dice.one_in(3) {
        let chosen = dice.below(addresses.len());
        addresses[chosen].kind = dice.pick(&[0, 3]);
        return bits_of(profile, &message);
    }
    let mut bits = bits_of(profile, &message);
    match dice.below(4) {
        0 => bits.truncate(11 + dice.below(bits.len() - 11)),
        1 => bits.push(dice.one_in(2)),
        _ => {
            bits.pop();
        }
    }
    bits
}

/// A type that is still not carried, before the elements of some message.
pub fn not_carried(dice: &mut Dice, profile: &Profile) -> Vec<bool> {
    let mut bits = sound(dice, profile);
    bits.splice(6..11, elements(&[(dice.pick(&NOT_CARRIED), 5)]));
    bits
}

/// A good header and then any bits.
pub fn content(dice: &mut Dice, profile: &Profile) -> Vec<bool> {
    let mut bits = elements(&[(profile.ss_type, 6), (dice.pick(&CARRIED), 5)]);
    let rest = match dice.below(3) {
        0 => dice.pick(&[0, 5, 6, 14, 26, 50]),
        _ => dice.below(330),
    };
    bits.extend(dice.bits(rest));
    bits
}

/// A second fault on top of whatever the bits have already; one of them decides the refusal.
pub fn touch(dice: &mut Dice, bits: &mut Vec<bool>) {
    match dice.below(5) {
        0 => bits.truncate(dice.below(bits.len() + 1)),
        1 => leave_over(dice, bits),
        2 => {
            bits.insert(dice.below(bits.len() + 1), true);
        }
        3 => {
            bits.remove(dice.below(bits.len()));
        }
        _ => flip(dice, bits),
    }
}

pub fn leave_over(dice: &mut Dice, bits: &mut Vec<bool>) {
    let more = match dice.below(4) {
        0 => dice.below(300),
        _ => dice.pick(&[1, 1, 2, 7, 8, 9]),
    };
    if dice.one_in(3) {
        bits.extend(vec![false; more]);
    } else {
        bits.extend(dice.bits(more));
    }
}

/// Flips one to five bits, half of the time within the first 20, where most is decided.
pub fn flip(dice: &mut Dice, bits: &mut [bool]) {
    for _ in 0..=dice.below(5) {
        let within = if dice.one_in(2) {
            bits.len().min(20)
        } else {
            bits.len()
        };
        let place = dice.below(within);
        bits[place] = !bits[place];
    }
}

pub fn addresses_of(message: &mut Message) -> Vec<&mut Address> {
    match message {
        Message::Interrogate { user } => vec![user],
        Message::Intercepted { dispatcher, .. }
        | Message::Diverted { dispatcher, .. }
        | Message::Rejected { dispatcher, .. } => dispatcher.iter_mut().collect(),
        Message::Request { options, .. } => {
            let Options {
                calling, called, ..
            } = options;
            calling.iter_mut().chain(called).collect()
        }
        _ => groups_of(message)
            .into_iter()
            .flat_map(|group| group.addresses.iter_mut())
            .collect(),
    }
}
