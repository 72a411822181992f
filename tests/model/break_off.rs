//! Messages that break off, drawn by the dice: every element of every message, wherever it may
//! stand, about as often as any other.

use crate::breakable::{places, NO_TYPE};
use crate::dice::Dice;
use crate::draw;
use crate::fault;
use crate::profile::Profile;
use crate::trail::{trail, Span};
use crate::user_fault;
use crate::write::{bits_of, bytes_of};

/// So many messages are drawn in search of an element that not every one has.
const TRIES: usize = 60;

/// The bytes and the bit length. Behind the length the bytes may say the rest of the message, or
/// anything else.
pub fn message(dice: &mut Dice, profile: &Profile) -> (Vec<u8>, usize) {
    let (bits, span) = with_element(dice, profile);
    let there = match dice.below(4) {
        0 => 0,
        1 => span.width - 1,
        _ => dice.below(span.width),
    };
    // A length of 0 would be 3; and any bits may break off by themselves.
    let length = (span.begin + there).clamp(1, bits.len());
    let mut bytes = bytes_of(&bits);
    if dice.one_in(2) {
        bytes = bytes_of(&bits[..length]);
        if dice.one_in(2) {
            let spare = 8 * bytes.len() - length;
            let last = bytes.len() - 1;
            bytes[last] |= (dice.number(8) & ((1 << spare) - 1)) as u8;
            let more = dice.below(4);
            bytes.extend(dice.bytes(more));
        }
    }
    (bytes, length)
}

/// The bits of a message and one of its elements, which is drawn first; any element of any bits
/// where the profile seems to have no such message.
fn with_element(dice: &mut Dice, profile: &Profile) -> (Vec<bool>, Span) {
    let (pdu_type, element, part) = dice.pick(&places());
    for _ in 0..TRIES {
        if let Some(bits) = of_type(dice, profile, pdu_type) {
            let mut like = trail(profile, &bytes_of(&bits), bits.len());
            like.retain(|span| span.element == element && span.part == part);
            if !like.is_empty() {
                return (bits, dice.pick(&like));
            }
        }
    }
    let bits = fault::content(dice, profile);
    let span = dice.pick(&trail(profile, &bytes_of(&bits), bits.len()));
    (bits, span)
}

/// A good message, but for the ends of its ranges now and then.
fn of_type(dice: &mut Dice, profile: &Profile, pdu_type: u32) -> Option<Vec<bool>> {
    let mut message = match pdu_type {
        NO_TYPE => draw::message(dice, profile),
        _ => draw::of_type(dice, profile, pdu_type)?,
    };
    if ((2..=5).contains(&pdu_type) || pdu_type == 9) && dice.one_in(6) {
        user_fault::faulty_ends(dice, profile, &mut message);
    }
    Some(bits_of(profile, &message))
}
