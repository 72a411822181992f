//! Messages with a fault in their users or dispatchers, drawn by the dice: range numbers, ends of a
//! range, masks; and whatever may be amiss with DEACTIVATE and its ACK.

use crate::ack::Ack;
use crate::dice::Dice;
use crate::draw;
use crate::fault::{addresses_of, content, leave_over};
use crate::interrogate_ack::{Groups, InterrogateAck};
use crate::message::{meaning_of, Group, Message};
use crate::profile::{Meaning, Profile};
use crate::write::{bits_of, elements};

/// Range ends that fall, span too much, or differ in kind or extension; and those just good.
pub fn range_ends(dice: &mut Dice, profile: &Profile) -> Vec<bool> {
    let mut message = message_with_group(dice, profile);
    faulty_ends(dice, profile, &mut message);
    bits_of(profile, &message)
}

/// A group of the message becomes one of these.
pub fn faulty_ends(dice: &mut Dice, profile: &Profile, message: &mut Message) {
    let faulty = faulty_range(dice, profile);
    let mut groups = groups_of(message);
    let chosen = dice.below(groups.len());
    *groups[chosen] = faulty;
}

/// First and last of a range, as range 15 means it under the sample profile, or as a value of this
/// profile does; mostly with a fault.
pub fn faulty_range(dice: &mut Dice, profile: &Profile) -> Group {
    let span = dice.pick(&[1, 2, 3, 63, 64, 65, 66, 128, 1 << 16, 1 << 24]);
    let mut ends = draw::range_ends(dice, profile, span);
    match dice.below(10) {
        0 => ends.swap(0, 1),
        1 => ends[0].ssi = ends[1].ssi.saturating_add(1).min((1 << 24) - 1),
        2 => ends[1].ssi = ends[0].ssi.saturating_sub(1),
        3 => ends[1].kind = 3 - ends[1].kind,
        4 => {
            ends[0].kind = 1;
            ends[1].kind = 2;
            ends[1].extension = profile.home_extension;
        }
        5 => {
            ends[0].kind = 2;
            ends[1].kind = 2;
            ends[1].extension = ends[0].extension ^ (1 << dice.below(24));
        }
        _ => {}
    }
    let meant: Vec<u32> = (0..16)
        .filter(|range| meaning_of(profile, *range) == Meaning::FirstAndLast)
        .collect();
    let range = if meant.is_empty() || dice.one_in(3) {
        15
    } else {
        dice.pick(&meant)
    };
    Group {
        range,
        addresses: ends,
    }
}

/// Any range number before addresses that were meant for another one.
pub fn range(dice: &mut Dice, profile: &Profile) -> Vec<bool> {
    let mut message = message_with_group(dice, profile);
    let mut groups = groups_of(&mut message);
    let chosen = dice.below(groups.len());
    groups[chosen].range = dice.number(4);
    bits_of(profile, &message)
}

/// A mask one bit too long or too short, which moves the result and the reason.
pub fn mask(dice: &mut Dice, profile: &Profile) -> Vec<bool> {
    loop {
        let mut message = draw::message(dice, profile);
        if let Message::ActivateAck(Ack {
            mask: Some(mask), ..
        })
        | Message::DeactivateAck(Ack {
            mask: Some(mask), ..
        })
        | Message::InterrogateAck(InterrogateAck {
            mask: Some(mask), ..
        }) = &mut message
        {
            if dice.one_in(2) {
                mask.push(dice.one_in(2));
            } else {
                mask.pop();
            }
            return bits_of(profile, &message);
        }
    }
}

/// DEACTIVATE or DEACTIVATE ACK with one fault that reading tells, or nearly one.
pub fn deactivation(dice: &mut Dice, profile: &Profile) -> Vec<bool> {
    let pdu_type = dice.pick(&[4, 5]);
    let mut message = match draw::about_users(dice, profile, pdu_type) {
        Some(message) => message,
        None => return content(dice, profile),
    };
    match dice.below(10) {
        0..=3 => faulty_ends(dice, profile, &mut message),
        4 => groups_of(&mut message)[0].range = dice.number(4),
        5 => {
            let mut addresses = addresses_of(&mut message);
            let chosen = dice.below(addresses.len());
            addresses[chosen].kind = dice.pick(&[0, 3]);
        }
        _ => {}
    }
    let mut bits = bits_of(profile, &message);
    match dice.below(8) {
        0 => bits.truncate(11 + dice.below(bits.len() - 11)),
        1 => leave_over(dice, &mut bits),
        // Most of what an ACK has behind its users is in its last bits.
        2 => bits.truncate(bits.len() - dice.pick(&[1, 1, 2, 3, 8, 9, 10, 12, 20])),
        3 if dice.one_in(2) => {
            let other = dice.number(6);
            bits.splice(0..6, elements(&[(other, 6)]));
        }
        _ => {}
    }
    bits
}

fn message_with_group(dice: &mut Dice, profile: &Profile) -> Message {
    loop {
        let mut message = draw::message(dice, profile);
        if !groups_of(&mut message).is_empty() {
            return message;
        }
    }
}

pub fn groups_of(message: &mut Message) -> Vec<&mut Group> {
    match message {
        Message::Activate {
            users,
            dispatchers: Some(dispatchers),
        } => vec![users, dispatchers],
        Message::Activate { users, .. }
        | Message::Deactivate { users }
        | Message::ActivateAck(Ack { users, .. })
        | Message::DeactivateAck(Ack { users, .. }) => vec![users],
        Message::InterrogateAck(InterrogateAck { users, groups, .. }) => {
            let Groups {
                dispatchers,
                sources,
                destinations,
                ..
            } = groups;
            let further = [dispatchers, sources, destinations];
            [users]
                .into_iter()
                .chain(further.into_iter().flatten())
                .collect()
        }
        _ => Vec::new(),
    }
}
