//! The calls of a history: messages of posts, set-ups, rejects and cancels, good and faulty.

use super::{Mood, Source};
use crate::break_off;
use crate::dice::Dice;
use crate::draw;
use crate::fault;
use crate::hex::hex_of;
use crate::interrogation_fault::interrogation;
use crate::message::{meaning_of, Group, Message};
use crate::places::Call;
use crate::profile::{Meaning, Profile};
use crate::records::Identity;
use crate::user_fault;
use crate::write::{bits_of, bytes_of};

/// Some are good in their lowest 5, 8 or 16 bits.
pub(super) const CAUSES_TOO_WIDE: [u32; 8] = [32, 33, 63, 255, 256, 1 << 14, 1 << 16, u32::MAX];

impl Source {
    pub(super) fn call(&mut self) -> Vec<u8> {
        let (set_up, ending) = match self.mood {
            Mood::Fill => (50, 60),
            Mood::Drain => (15, 65),
            Mood::Mix => (25, 45),
        };
        match self.dice.below(100) {
            chosen if chosen < set_up => self.set_up(),
            chosen if chosen < ending => self.ending(),
            chosen if chosen < 73 => self.activate(),
            chosen if chosen < 82 => self.deactivate(),
            chosen if chosen < 91 => self.interrogate(),
            _ => self.faulty_message(),
        }
    }

    fn set_up(&mut self) -> Vec<u8> {
        let (mut caller, mut called) = self.parties();
        let mut identifier = self.new_identifier();
        let mut cause = set_up_cause(&mut self.dice);
        if self.dice.one_in(20) {
            let far = self.dice.pick(&[1 << 24, u32::MAX]);
            match self.dice.below(8) {
                0 => caller.ssi = far,
                1 => caller.extension = far,
                2 => called.ssi = far,
                3 => called.extension = far,
                4 => identifier = self.dice.pick(&[1 << 14, u32::MAX]),
                _ => cause = Some(self.dice.pick(&CAUSES_TOO_WIDE)),
            }
        }
        set_up_line(caller, called, identifier, cause)
    }

    /// A third of the time two whose posts are both to be asked, if there are such.
    pub(super) fn parties(&mut self) -> (Identity, Identity) {
        if self.dice.one_in(3) {
            if let Some(parties) = self.parties_of_two_posts() {
                return parties;
            }
        }
        (self.party(), self.party())
    }

    /// Half of the time one whose record is in use and marked, if there is one.
    fn party(&mut self) -> Identity {
        let marked: Vec<Identity> = self
            .replay
            .records
            .iter()
            .filter(|record| record.in_use && record.active)
            .map(|record| Identity {
                ssi: record.ssi,
                extension: record.extension,
            })
            .collect();
        if marked.is_empty() || self.dice.one_in(2) {
            self.cast.identity(&mut self.dice)
        } else {
            self.dice.pick(&marked)
        }
    }

    /// One that ended calls leave behind and new ones take again; it may be waiting.
    pub(super) fn new_identifier(&mut self) -> u32 {
        match self.dice.below(12) {
            0 => self.dice.pick(&[0, 16_383]),
            1 => self.dice.number(14),
            _ => self.dice.below(300) as u32,
        }
    }

    /// ACCEPT, DIVERT, REJECT, reject or cancel, mostly of a waiting call and mostly at its post.
    fn ending(&mut self) -> Vec<u8> {
        let calls = self.calls_waiting();
        let of_two_posts: Vec<(Call, u32)> = calls
            .iter()
            .filter_map(|call| Some((*call, call.second?)))
            .collect();
        if !of_two_posts.is_empty() && !self.dice.one_in(3) {
            let (call, second) = self.dice.pick(&of_two_posts);
            return self.ask(call, second);
        }
        let (mut identifier, mut post) = if calls.is_empty() || self.dice.one_in(8) {
            (self.new_identifier(), self.post())
        } else {
            let call = self.dice.pick(&calls);
            (call.identifier, call.post)
        };
        if self.dice.one_in(8) {
            post = self.post();
        }
        let message = match self.dice.below(5) {
            0 => Message::Accept { identifier },
            1 => Message::Divert { identifier },
            2 => Message::Reject {
                identifier,
                cause: cause(&mut self.dice),
            },
            plain => {
                let post_is_there = (post as usize) < self.replay.desk.profile.posts.len();
                if self.dice.one_in(if post_is_there { 20 } else { 2 }) {
                    identifier = self.dice.pick(&[1 << 14, u32::MAX]);
                }
                return if plain == 3 {
                    format!("reject {post} {identifier}").into_bytes()
                } else {
                    format!("cancel {identifier}").into_bytes()
                };
            }
        };
        message_line(&self.replay.desk.profile, post, &message)
    }

    fn activate(&mut self) -> Vec<u8> {
        let profile = &self.replay.desk.profile;
        let users = self.cast.users(&mut self.dice, profile);
        let dispatchers = match self.dice.below(8) {
            0 => Some(self.cast.users(&mut self.dice, profile)),
            1 => none_group(&mut self.dice, profile),
            _ => None,
        };
        let post = self.post();
        let message = Message::Activate { users, dispatchers };
        message_line(&self.replay.desk.profile, post, &message)
    }

    /// A post of the profile, and now and then one that isn't there.
    pub(super) fn post(&mut self) -> u32 {
        let count = self.replay.desk.profile.posts.len();
        match self.dice.below(40) {
            0 => self.dice.pick(&[count as u32, 8, 255, 256, u32::MAX]),
            _ => self.dice.below(count) as u32,
        }
    }

    /// Three messages in a row that break off.
    pub(super) fn broken_off(&mut self) -> Vec<u8> {
        for _ in 0..2 {
            let line = self.broken_message();
            self.waiting.push_back(line);
        }
        self.broken_message()
    }

    fn broken_message(&mut self) -> Vec<u8> {
        let post = self.post();
        let (bytes, length) = break_off::message(&mut self.dice, &self.replay.desk.profile);
        post_line(post, length as u32, &bytes)
    }

    /// A message that reading refuses, or one that posts don't send.
    fn faulty_message(&mut self) -> Vec<u8> {
        let post = self.post();
        let (dice, profile) = (&mut self.dice, &self.replay.desk.profile);
        let mut bits = match dice.below(26) {
            0 => fault::ss_type(dice, profile),
            1 | 2 => fault::pdu_type(dice, profile),
            3 => user_fault::range_ends(dice, profile),
            4 => user_fault::range(dice, profile),
            5 => fault::kind(dice, profile),
            6 => fault::option(dice, profile),
            7 => user_fault::mask(dice, profile),
            8 => fault::content(dice, profile),
            9 => fault::options(dice, profile),
            10..=12 => fault::about_waiting_call(dice, profile),
            13 | 14 => bits_of(profile, &draw::about_waiting_call(dice, profile)),
            15..=18 => user_fault::deactivation(dice, profile),
            19 => fault::not_carried(dice, profile),
            20..=23 => interrogation(dice, profile),
            _ => bits_of(profile, &draw::message(dice, profile)),
        };
        if dice.one_in(3) {
            fault::touch(dice, &mut bits);
        }
        let mut bytes = bytes_of(&bits);
        let mut length = bits.len() as u32;
        if dice.one_in(5) {
            length = dice.pick(&[0, length + 8, 2048, 2049, 4096, 4097, u32::MAX]);
        }
        if dice.one_in(16) {
            // Around both bounds, the one before request (viii) and the one since.
            length = dice.pick(&[2047, 2048, 2049, 3000, 4095, 4096, 4097]);
            bytes.resize(512, 0);
        } else if dice.one_in(8) {
            bytes.resize(dice.pick(&[0, 1, 255, 256, 511, 512, 512]), 0);
        }
        post_line(post, length, &bytes)
    }
}

/// A line without a cause where there is none, as scripts had it before request (iv).
pub(super) fn set_up_line(
    caller: Identity,
    called: Identity,
    identifier: u32,
    cause: Option<u32>,
) -> Vec<u8> {
    let mut line = format!(
        "setup {} {} {} {} {identifier}",
        caller.ssi, caller.extension, called.ssi, called.extension
    );
    if let Some(cause) = cause {
        line.push_str(&format!(" {cause}"));
    }
    line.into_bytes()
}

/// None a third of the time.
pub(super) fn set_up_cause(dice: &mut Dice) -> Option<u32> {
    if dice.one_in(3) {
        None
    } else {
        Some(cause(dice))
    }
}

/// A cause of 5 bits; 0, 31 and the standard's single bits often.
pub(super) fn cause(dice: &mut Dice) -> u32 {
    match dice.below(3) {
        0 => dice.pick(&[0, 0, 0, 1, 2, 4, 8, 16, 31]),
        _ => dice.number(5),
    }
}

pub(super) fn message_line(profile: &Profile, post: u32, message: &Message) -> Vec<u8> {
    let bits = bits_of(profile, message);
    post_line(post, bits.len() as u32, &bytes_of(&bits))
}

/// A group that means "none", which is as no option, if the profile has a range for it.
fn none_group(dice: &mut Dice, profile: &Profile) -> Option<Group> {
    let ranges: Vec<u32> = (0..16)
        .filter(|range| meaning_of(profile, *range) == Meaning::NoIdentity)
        .collect();
    if ranges.is_empty() {
        return None;
    }
    Some(Group {
        range: dice.pick(&ranges),
        addresses: Vec::new(),
    })
}

pub(super) fn post_line(post: u32, bits: u32, bytes: &[u8]) -> Vec<u8> {
    if bytes.is_empty() {
        format!("post {post} {bits}").into_bytes()
    } else {
        format!("post {post} {bits} {}", hex_of(bytes)).into_bytes()
    }
}
