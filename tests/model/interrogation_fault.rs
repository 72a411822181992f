//! INTERROGATE ACK with a fault in its bits, drawn by the dice, or on the good side of an edge; and
//! the longest that a profile has.

use crate::dice::Dice;
use crate::draw;
use crate::fault::{content, leave_over};
use crate::interrogate_ack::{Areas, Groups, InterrogateAck, Interrogation};
use crate::message::{identity_count, meaning_of, Address, Group, Message};
use crate::profile::{Meaning, Profile};
use crate::trail::trail;
use crate::user_fault::faulty_range;
use crate::write::{bits_of, bytes_of, elements};

/// One fault that reading tells, or nearly one; any other message where the profile has no range
/// for users.
pub fn interrogation(dice: &mut Dice, profile: &Profile) -> Vec<bool> {
    let users = match draw::users(dice, profile) {
        Some(users) => users,
        None => return content(dice, profile),
    };
    let mut ack = draw::interrogate_ack(dice, profile, users);
    match dice.below(12) {
        0..=5 => faulty_group(dice, profile, &mut ack),
        6 => faulty_destination(dice, profile, &mut ack),
        7 => ack.groups.areas = Some(faulty_areas(dice, profile)),
        8 => return no_group(dice, profile, ack),
        9 => {
            if let Some(mask) = &mut ack.mask {
                match dice.one_in(2) {
                    true => mask.push(dice.one_in(2)),
                    false => {
                        mask.pop();
                    }
                }
            }
        }
        10 => none_of_all(dice, profile, &mut ack.groups),
        _ => {}
    }
    let mut bits = bits_of(profile, &Message::InterrogateAck(ack));
    match dice.below(14) {
        0 => bits.truncate(11 + dice.below(bits.len() - 11)),
        1 => leave_over(dice, &mut bits),
        2 => bits.truncate(bits.len() - dice.pick(&[1, 1, 2, 3, 4, 5, 6, 8, 9, 12])),
        3 if dice.one_in(2) => {
            let other = dice.number(6);
            bits.splice(0..6, elements(&[(other, 6)]));
        }
        4 | 5 => {
            // Nothing behind what is refused, where something is.
            let spans = trail(profile, &bytes_of(&bits), bits.len());
            let end = spans.last().map_or(0, |last| last.begin + last.width);
            bits.truncate(end);
        }
        _ => {}
    }
    bits
}

/// The users, the dispatchers, the sources or the destinations, there whether they were or not,
/// with a range number, a kind or ends that may be refused.
fn faulty_group(dice: &mut Dice, profile: &Profile, ack: &mut InterrogateAck) {
    let ranges = with_meaning(profile, Meaning::FirstAndLast);
    let mut group = ack.users.clone();
    match dice.below(12) {
        0 | 1 => {
            let meaning = dice.pick(&[Meaning::Reserved, Meaning::NoIdentity]);
            let meant = with_meaning(profile, meaning);
            group.range = match meant.is_empty() {
                true => dice.number(4),
                false => dice.pick(&meant),
            };
        }
        2 | 3 => {
            let chosen = dice.below(group.addresses.len());
            group.addresses[chosen].kind = dice.pick(&[0, 3]);
        }
        _ => {
            group = faulty_range(dice, profile);
            if !ranges.is_empty() {
                group.range = dice.pick(&ranges);
            }
        }
    }
    match dice.below(4) {
        0 => {
            // A mask goes with the users that it counts.
            ack.mask = None;
            ack.users = group;
        }
        1 => ack.groups.dispatchers = Some(group),
        2 => ack.groups.sources = Some(group),
        _ => ack.groups.destinations = Some(group),
    }
}

/// A destination of kind 3, or 0 now and then, wherever it stands among them.
fn faulty_destination(dice: &mut Dice, profile: &Profile, ack: &mut InterrogateAck) {
    let ranges = with_meaning(profile, Meaning::FirstAndLast);
    let mut group = ack.users.clone();
    if !ranges.is_empty() && dice.one_in(2) {
        group = Group {
            range: dice.pick(&ranges),
            addresses: draw::range_ends(dice, profile, 2),
        };
    }
    let chosen = match dice.below(3) {
        0 => 0,
        _ => dice.below(group.addresses.len()),
    };
    group.addresses[chosen].kind = dice.pick(&[3, 3, 3, 0]);
    ack.groups.destinations = Some(group);
}

/// First and last of some areas: falling, equal or rising, as 15 means them under the sample
/// profile or as a value of this profile does; or any range number before them.
fn faulty_areas(dice: &mut Dice, profile: &Profile) -> Areas {
    let first = dice.number(4);
    let last = match dice.below(6) {
        0 => first,
        1 => first.saturating_sub(1),
        2 => (first + 1).min(15),
        3 => 15 - first,
        _ => dice.number(4),
    };
    let meant = with_meaning(profile, Meaning::FirstAndLast);
    let range = match dice.below(6) {
        0 => dice.number(4),
        _ if meant.is_empty() => 15,
        _ => dice.pick(&meant),
    };
    Areas {
        range,
        areas: vec![first, last],
    }
}

/// Each group there, and each of them "none", if the profile has a range for that.
fn none_of_all(dice: &mut Dice, profile: &Profile, groups: &mut Groups) {
    let ranges = with_meaning(profile, Meaning::NoIdentity);
    if ranges.is_empty() {
        return;
    }
    let mut none = || {
        Some(Group {
            range: dice.pick(&ranges),
            addresses: Vec::new(),
        })
    };
    groups.dispatchers = none();
    groups.sources = none();
    groups.destinations = none();
    groups.areas = Some(Areas {
        range: dice.pick(&ranges),
        areas: Vec::new(),
    });
}

fn with_meaning(profile: &Profile, meaning: Meaning) -> Vec<u32> {
    (0..16)
        .filter(|range| meaning_of(profile, *range) == meaning)
        .collect()
}

/// An O-bit of 1 and all P-bits 0, or one of them 1 and nothing behind it; some end among the
/// P-bits, or have bits after the last one.
fn no_group(dice: &mut Dice, profile: &Profile, ack: InterrogateAck) -> Vec<bool> {
    let groups = Groups::default();
    let ack = Message::InterrogateAck(InterrogateAck { groups, ..ack });
    let mut bits = bits_of(profile, &ack);
    let o_bit = bits.len() - 1;
    bits[o_bit] = true;
    for _ in 0..4 {
        bits.push(dice.one_in(16));
    }
    match dice.below(5) {
        0 => bits.truncate(bits.len() - 1 - dice.below(4)),
        1 => leave_over(dice, &mut bits),
        _ => {}
    }
    bits
}

/// All groups there, each with the longest list that the profile has, of kind 2: 3,119 bits where
/// it has a list of fifteen. Or with one group less, not accepted, or without a mask. Nothing if the
/// profile has no list.
pub fn longest(dice: &mut Dice, profile: &Profile) -> Option<Message> {
    let lists = |range: &u32| match meaning_of(profile, *range) {
        Meaning::List(count) => Some((count, *range)),
        _ => None,
    };
    let (count, range) = (0..16).filter_map(|range| lists(&range)).max()?;
    let mut group = || Group {
        range,
        addresses: (0..count).map(|_| far(dice, profile)).collect(),
    };
    let (users, mut groups) = (
        group(),
        Groups {
            dispatchers: Some(group()),
            sources: Some(group()),
            destinations: Some(group()),
            areas: None,
        },
    );
    groups.areas = Some(Areas {
        range,
        areas: (0..count).map(|_| dice.number(4)).collect(),
    });
    let mut mask = Some(dice.bits(identity_count(profile, &users)));
    let mut result = Interrogation::Accepted {
        activation: dice.number(1),
        interception: dice.number(1),
        called_service: dice.number(2),
        calling_service: dice.number(2),
    };
    match dice.below(12) {
        0 => groups.dispatchers = None,
        1 => groups.sources = None,
        2 => groups.destinations = None,
        3 => groups.areas = None,
        4 => mask = None,
        5 => {
            result = Interrogation::NotAccepted {
                reason: dice.number(3),
            }
        }
        _ => {}
    }
    Some(Message::InterrogateAck(InterrogateAck {
        users,
        mask,
        result,
        groups,
    }))
}

fn far(dice: &mut Dice, profile: &Profile) -> Address {
    Address {
        kind: 2,
        ..draw::address(dice, profile)
    }
}
