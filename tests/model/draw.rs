//! Valid profiles and valid messages drawn by the dice, with the edges of each number frequent.
//! Whatever is drawn here, reading has to accept.

use crate::ack::{Ack, AckResult};
use crate::dice::Dice;
use crate::interrogate_ack::{
    area_count, Areas, Groups, InterrogateAck, Interrogation, FAILURE_BITS,
};
use crate::message::{identity_count, meaning_of, Address, Group, Message};
use crate::profile::{Meaning, Post, Profile, MOST_POSTS, PLACES};
use crate::request::{Options, AREA_BITS, SERVICE_BITS};

const LARGEST_24_BITS: u32 = (1 << 24) - 1;

pub fn profile(dice: &mut Dice) -> Profile {
    let mut meanings = [Meaning::Reserved; 16];
    for meaning in meanings.iter_mut() {
        *meaning = match dice.below(6) {
            0 => Meaning::NoIdentity,
            1 => Meaning::FirstAndLast,
            2 => Meaning::Reserved,
            _ => Meaning::List(1 + dice.below(15) as u8),
        };
    }
    let reason_no_record = dice.number(7);
    Profile {
        ss_type: dice.number(6),
        home_extension: extension(dice, 0),
        meanings,
        reason_no_record,
        reason_other_post: if dice.one_in(4) {
            reason_no_record
        } else {
            dice.number(7)
        },
        posts: posts(dice),
        failure_no_record: dice.number(3),
        failure_other_post: dice.number(3),
    }
}

pub fn posts(dice: &mut Dice) -> Vec<Post> {
    let mut posts = Vec::new();
    let mut unreserved = PLACES;
    for _ in 0..=dice.below(MOST_POSTS) {
        let ceiling = 1 + dice.below(PLACES as usize) as u32;
        let reserved = dice.below(1 + ceiling.min(unreserved) as usize) as u32;
        unreserved -= reserved;
        posts.push(Post { reserved, ceiling });
    }
    posts
}

pub fn message(dice: &mut Dice, profile: &Profile) -> Message {
    if dice.one_in(3) {
        return about_waiting_call(dice, profile);
    }
    let pdu_type = dice.pick(&[
        2, 2, 2, 3, 3, 3, 4, 4, 4, 5, 5, 5, 8, 8, 9, 9, 9, 9, 10, 10, 12, 12, 13, 13, 15, 15, 16,
        16,
    ]);
    of_type(dice, profile, pdu_type).unwrap_or(Message::Accepted)
}

/// A message of this type, which is carried; nothing if it is about users and the profile has no
/// range value that users may have.
pub fn of_type(dice: &mut Dice, profile: &Profile, pdu_type: u32) -> Option<Message> {
    Some(match pdu_type {
        2..=5 | 9 => return about_users(dice, profile, pdu_type),
        8 => Message::Interrogate {
            user: address(dice, profile),
        },
        10 => Message::Intercepted {
            cause: dice.number(5),
            dispatcher: optional_address(dice, profile),
        },
        11 => Message::Request {
            identifier: identifier(dice),
            cause: dice.number(5),
            options: options(dice, profile),
        },
        12 => Message::Accept {
            identifier: identifier(dice),
        },
        13 => Message::Accepted,
        14 => Message::Cancel {
            identifier: identifier(dice),
        },
        15 => Message::Divert {
            identifier: identifier(dice),
        },
        16 => Message::Diverted {
            cause: dice.number(5),
            dispatcher: optional_address(dice, profile),
        },
        17 => Message::Reject {
            identifier: identifier(dice),
            cause: dice.number(5),
        },
        _ => Message::Rejected {
            cause: dice.number(5),
            dispatcher: optional_address(dice, profile),
        },
    })
}

/// ACTIVATE, its ACK, DEACTIVATE, its ACK or INTERROGATE ACK; nothing if the profile has no range value that users
/// may have.
pub fn about_users(dice: &mut Dice, profile: &Profile, pdu_type: u32) -> Option<Message> {
    let users = users(dice, profile)?;
    Some(match pdu_type {
        2 => Message::Activate {
            users,
            dispatchers: dispatchers(dice, profile),
        },
        3 => Message::ActivateAck(ack(dice, profile, users)),
        4 => Message::Deactivate { users },
        9 => Message::InterrogateAck(interrogate_ack(dice, profile, users)),
        _ => Message::DeactivateAck(ack(dice, profile, users)),
    })
}

/// REQUEST, CANCEL, REJECT or REJECTED, nearly half of the time REQUEST.
pub fn about_waiting_call(dice: &mut Dice, profile: &Profile) -> Message {
    let pdu_type = dice.pick(&[14, 17, 18, 18, 11, 11, 11]);
    of_type(dice, profile, pdu_type).expect("it is not about users")
}

/// Any choice of the seven; none, all and just one come more often than the others.
fn options(dice: &mut Dice, profile: &Profile) -> Options {
    let chosen = match dice.below(6) {
        0 => 0,
        1 => 127,
        2 => 1 << dice.below(7),
        _ => dice.number(7),
    };
    let there = |option: u32| (chosen >> option) & 1 == 1;
    Options {
        calling: there(0).then(|| address(dice, profile)),
        called: there(1).then(|| address(dice, profile)),
        mni: there(2).then(|| extension(dice, profile.home_extension)),
        calling_area: there(3).then(|| dice.number(AREA_BITS)),
        called_area: there(4).then(|| dice.number(AREA_BITS)),
        calling_service: there(5).then(|| dice.number(SERVICE_BITS)),
        called_service: there(6).then(|| dice.number(SERVICE_BITS)),
    }
}

/// Any choice of the four groups; none, all and just one come more often than the others.
pub fn interrogate_ack(dice: &mut Dice, profile: &Profile, users: Group) -> InterrogateAck {
    let mask = mask(dice, profile, &users);
    let result = if dice.one_in(2) {
        Interrogation::Accepted {
            activation: dice.number(1),
            interception: dice.number(1),
            called_service: dice.number(SERVICE_BITS),
            calling_service: dice.number(SERVICE_BITS),
        }
    } else {
        Interrogation::NotAccepted {
            reason: dice.number(FAILURE_BITS),
        }
    };
    let chosen = match dice.below(6) {
        0 => 0,
        1 | 2 => 15,
        3 => 1 << dice.below(4),
        _ => dice.number(4),
    };
    let ranges = ranges(profile);
    let there = |option: u32| (chosen >> option) & 1 == 1;
    let mut some_group = |option| match there(option) {
        true => group(dice, profile, &ranges),
        false => None,
    };
    let groups = Groups {
        dispatchers: some_group(0),
        sources: some_group(1),
        destinations: some_group(2),
        areas: there(3).then(|| areas(dice, profile, &ranges)).flatten(),
    };
    InterrogateAck {
        users,
        mask,
        result,
        groups,
    }
}

/// Nothing if there is no such range.
fn areas(dice: &mut Dice, profile: &Profile, ranges: &[u32]) -> Option<Areas> {
    if ranges.is_empty() {
        return None;
    }
    let range = dice.pick(ranges);
    let mut areas: Vec<u32> = (0..area_count(meaning_of(profile, range))?)
        .map(|_| dice.number(AREA_BITS))
        .collect();
    if meaning_of(profile, range) == Meaning::FirstAndLast {
        match dice.below(4) {
            0 => areas[1] = areas[0],
            1 => areas = vec![0, 15],
            _ => areas.sort(),
        }
    }
    Some(Areas { range, areas })
}

fn mask(dice: &mut Dice, profile: &Profile, users: &Group) -> Option<Vec<bool>> {
    let count = identity_count(profile, users);
    match dice.below(6) {
        0 => Some(vec![false; count]),
        1 => Some(vec![true; count]),
        2 | 3 => Some(dice.bits(count)),
        _ => None,
    }
}

fn ack(dice: &mut Dice, profile: &Profile, users: Group) -> Ack {
    let mask = mask(dice, profile, &users);
    let result = if dice.one_in(2) {
        AckResult::Accepted
    } else {
        AckResult::NotAccepted {
            reason: dice.number(7),
        }
    };
    Ack {
        users,
        mask,
        result,
    }
}

/// Nothing if the profile has no range for them.
pub fn users(dice: &mut Dice, profile: &Profile) -> Option<Group> {
    group(dice, profile, &user_ranges(profile))
}

/// The range values that users may have; a profile need not have one.
pub fn user_ranges(profile: &Profile) -> Vec<u32> {
    (0..16)
        .filter(|range| {
            matches!(
                meaning_of(profile, *range),
                Meaning::List(_) | Meaning::FirstAndLast
            )
        })
        .collect()
}

/// Nothing also where the dice leave the option out.
fn dispatchers(dice: &mut Dice, profile: &Profile) -> Option<Group> {
    if dice.one_in(3) {
        return None;
    }
    group(dice, profile, &ranges(profile))
}

/// Those that any group may have but the users'.
fn ranges(profile: &Profile) -> Vec<u32> {
    (0..16)
        .filter(|range| meaning_of(profile, *range) != Meaning::Reserved)
        .collect()
}

fn group(dice: &mut Dice, profile: &Profile, ranges: &[u32]) -> Option<Group> {
    if ranges.is_empty() {
        return None;
    }
    let range = dice.pick(ranges);
    let addresses = match meaning_of(profile, range) {
        Meaning::List(count) => (0..count).map(|_| address(dice, profile)).collect(),
        Meaning::FirstAndLast => {
            let span = match dice.below(4) {
                0 => dice.pick(&[1, 2, 63, 64]),
                _ => 1 + dice.below(64) as u32,
            };
            range_ends(dice, profile, span)
        }
        Meaning::NoIdentity | Meaning::Reserved => Vec::new(),
    };
    Some(Group { range, addresses })
}

/// First and last of a range of `span` identities, in any part of the number space.
pub fn range_ends(dice: &mut Dice, profile: &Profile, span: u32) -> Vec<Address> {
    let highest_first = LARGEST_24_BITS - (span - 1);
    let mut first = address(dice, profile);
    first.ssi = match dice.below(4) {
        0 => 0,
        1 => highest_first,
        _ => dice.below(highest_first as usize + 1) as u32,
    };
    let mut last = first.clone();
    last.ssi += span - 1;
    vec![first, last]
}

fn optional_address(dice: &mut Dice, profile: &Profile) -> Option<Address> {
    if dice.one_in(3) {
        None
    } else {
        Some(address(dice, profile))
    }
}

pub fn address(dice: &mut Dice, profile: &Profile) -> Address {
    let ssi = match dice.below(4) {
        0 => dice.pick(&[0, 1, 1 << 23, LARGEST_24_BITS]),
        1 => 1000 + dice.below(10) as u32,
        _ => dice.number(24),
    };
    if dice.one_in(2) {
        Address {
            kind: 1,
            ssi,
            extension: 0,
        }
    } else {
        Address {
            kind: 2,
            ssi,
            extension: extension(dice, profile.home_extension),
        }
    }
}

/// 24 bits, as an MNI has too.
fn extension(dice: &mut Dice, home: u32) -> u32 {
    match dice.below(4) {
        0 => home,
        1 => dice.pick(&[0, 1, 1 << 23, LARGEST_24_BITS]),
        _ => dice.number(24),
    }
}

fn identifier(dice: &mut Dice) -> u32 {
    match dice.below(4) {
        0 => dice.pick(&[0, 1, 5, 1 << 13, 16_383]),
        _ => dice.number(14),
    }
}
