//! What waits and which shares are in force, told from a history's lines and answers alone: held is
//! counted up by an admission, down by an end, and by both at a move; the shares are those of the
//! last profile, or those taken since.

use crate::message::{read, Message};
use crate::places::{Call, Places, ALL_FREE};
use crate::profile::{Post, Profile, PLACES};
use crate::records::{Identity, Record};
use crate::script::Line;

/// A post's reserved number and its ceiling.
pub(super) type Share = (u32, u32);

pub(super) struct Ledger {
    pub(super) places: Places,
    pub(super) held: [u32; 256],
    /// Of each post.
    pub(super) shares: Vec<Share>,
}

/// What an ACCEPT has to be answered; the posts are second posts, and a move has the call as it
/// was.
pub(super) enum Accept {
    Refused(u32),
    Refused18(u32),
    Moved(u32, Call),
    Proceed,
}

impl Accept {
    pub(super) fn words(&self, profile: &Profile) -> String {
        match self {
            Accept::Refused(number) => format!("refused {number}"),
            Accept::Refused18(_) => "refused 18".to_string(),
            Accept::Moved(post, call) => format!("moved {post} {}", request_hex(profile, call)),
            // ACCEPTED: the SS type, type 13, and five spare bits.
            Accept::Proceed => format!("proceed {:04X}", profile.ss_type << 10 | 13 << 5),
        }
    }
}

/// REQUEST without options, 31 bits: SS type 6, type 5, identifier 14, cause 5, an O-bit of 0.
pub(super) fn request_hex(profile: &Profile, call: &Call) -> String {
    let bits = profile.ss_type << 26 | 11 << 21 | call.identifier << 7 | call.cause << 2;
    format!("{bits:08X}")
}

/// No post over its ceiling, and all held plus all owed at most 32: each post counts for its
/// held or its reserved number, whichever is more.
pub(super) fn fit(shares: &[Share], held: &[u32; 256]) -> bool {
    let mut held_and_owed = 0;
    for (post, (reserved, ceiling)) in shares.iter().enumerate() {
        if held[post] > *ceiling {
            return false;
        }
        held_and_owed += held[post].max(*reserved);
    }
    held_and_owed <= PLACES
}

/// The shares of the posts, as pairs.
pub(super) fn pairs(posts: &[Post]) -> Vec<Share> {
    let pair = |post: &Post| (post.reserved, post.ceiling);
    posts.iter().map(pair).collect()
}

impl Ledger {
    pub(super) fn new() -> Self {
        Ledger {
            places: ALL_FREE,
            held: [0; 256],
            // Of the sample profile, which is in force at the start.
            shares: vec![(2, 30), (4, 8)],
        }
    }

    fn take_out(&mut self, place: usize) {
        if let Some(call) = self.places[place].take() {
            self.held[call.post as usize] -= 1;
        }
    }

    fn put(&mut self, place: usize, call: Call) {
        self.take_out(place);
        self.places[place] = Some(call);
        self.held[call.post as usize] += 1;
    }

    pub(super) fn waiting(&self, identifier: u32) -> Option<(usize, Call)> {
        for place in 0..PLACES as usize {
            match self.places[place] {
                Some(call) if call.identifier == identifier => return Some((place, call)),
                _ => {}
            }
        }
        None
    }

    pub(super) fn is_sound(&self) -> bool {
        let posts = self.shares.len() as u32;
        for (place, call) in self.places.iter().enumerate() {
            if let Some(call) = call {
                let (first, _) = self.waiting(call.identifier).unwrap_or((place, *call));
                if call.identifier > 16_383
                    || call.post >= posts
                    || call.second.unwrap_or(0) >= posts
                    || call.cause > 31
                    || first != place
                {
                    return false;
                }
            }
        }
        fit(&self.shares, &self.held)
    }

    /// A move leaves one call less at the first post and one more at the second, and is refused
    /// exactly if that doesn't fit.
    pub(super) fn accept(&self, post: u32, identifier: u32, long_enough: bool) -> Accept {
        if !self.is_sound() {
            return Accept::Refused(1);
        }
        if post as usize >= self.shares.len() {
            return Accept::Refused(2);
        }
        if !long_enough {
            return Accept::Refused(14);
        }
        match self.waiting(identifier) {
            None => Accept::Refused(19),
            Some((_, call)) if call.post != post => Accept::Refused(20),
            Some((_, call)) => match call.second {
                None => Accept::Proceed,
                Some(second) => {
                    let mut held = self.held;
                    held[post as usize] -= 1;
                    held[second as usize] += 1;
                    if fit(&self.shares, &held) {
                        Accept::Moved(second, call)
                    } else {
                        Accept::Refused18(second)
                    }
                }
            },
        }
    }

    pub(super) fn note(
        &mut self,
        profile: &Profile,
        records: &[Record],
        line: &Line,
        answer: &str,
    ) {
        let words: Vec<&str> = answer.split(' ').collect();
        let number = |word: usize| words[word].parse::<u32>().expect("a number");
        match line {
            Line::Profile(Some(profile)) if answer.is_empty() => {
                self.places = ALL_FREE;
                self.held = [0; 256];
                self.shares = pairs(&profile.posts);
            }
            Line::Shares(rows) if answer == "taken" => {
                self.shares = pairs(&rows[..self.shares.len()]);
            }
            Line::Place { place, call } => self.put(*place, *call),
            Line::Unplace { place } => self.take_out(*place),
            Line::Second { place, post } => {
                if let Some(call) = &mut self.places[*place] {
                    call.second = Some(*post);
                }
            }
            Line::Cause { place, cause } => {
                if let Some(call) = &mut self.places[*place] {
                    call.cause = *cause;
                }
            }
            Line::SetUp {
                caller,
                called,
                identifier,
                cause,
            } if words[0] == "admitted" => {
                let call = Call {
                    identifier: *identifier,
                    post: number(1),
                    second: match (marked(records, *caller), marked(records, *called)) {
                        (Some(callers), Some(calleds)) if callers != calleds => Some(calleds),
                        _ => None,
                    },
                    cause: *cause,
                };
                self.put(number(2) as usize, call);
            }
            Line::Reject { identifier, .. } | Line::Cancel { identifier } => {
                self.end(*identifier, words[0]);
            }
            Line::Post { bits, bytes, .. } => match read(profile, bytes, *bits) {
                Ok(Message::Accept { identifier }) if words[0] == "moved" => {
                    if let Some((place, call)) = self.waiting(identifier) {
                        let moved = Call {
                            post: number(1),
                            second: None,
                            ..call
                        };
                        self.put(place, moved);
                    }
                }
                Ok(
                    Message::Accept { identifier }
                    | Message::Divert { identifier }
                    | Message::Reject { identifier, .. },
                ) => self.end(identifier, words[0]),
                _ => {}
            },
            _ => {}
        }
    }

    fn end(&mut self, identifier: u32, answer: &str) {
        if ["proceed", "diverted", "rejected", "cancelled"].contains(&answer) {
            if let Some((place, _)) = self.waiting(identifier) {
                self.take_out(place);
            }
        }
    }
}

/// The post of the party's record, the lowest in use, if that is marked.
pub(super) fn marked(records: &[Record], party: Identity) -> Option<u32> {
    for record in records {
        if record.in_use && record.ssi == party.ssi && record.extension == party.extension {
            return if record.active {
                Some(record.post)
            } else {
                None
            };
        }
    }
    None
}
