//! Waiting calls that are put straight into places of the desk: up to what a share allows, or
//! so that the desk lent is damaged and every call gets 1 until they are taken out again. Second
//! posts and causes that calls are given, good and bad.

use super::calls::cause;
use super::Source;
use crate::places::{held, owed, Call};
use crate::profile::PLACES;

impl Source {
    pub(super) fn damage(&mut self) -> Vec<u8> {
        let calls = self.calls_waiting();
        let place = self.dice.below(PLACES as usize);
        let post = self.dice.below(self.replay.desk.profile.posts.len()) as u32;
        let identifier = self.dice.number(14);
        match self.dice.below(12) {
            0 => {
                let identifier = self.dice.pick(&[16_384, 32_768 + 5, 65_535]);
                place_line(place, identifier, post)
            }
            1 => {
                let post = self.post_not_there();
                place_line(place, identifier, post)
            }
            2 if !calls.is_empty() => {
                let waiting = self.dice.pick(&calls);
                place_line(place, waiting.identifier, post)
            }
            3 => self.put_calls(post, self.up_to_ceiling(post)),
            4 => self.put_calls(post, self.up_to_reserve(post)),
            5 => {
                let calls = self.dice.below(PLACES as usize);
                self.put_calls(post, calls)
            }
            6..=8 => self.second(place),
            _ => self.cause(place),
        }
    }

    /// A second post for a call, its own among them, or one that isn't there; or for whatever
    /// the place holds, if anything.
    fn second(&mut self, any: usize) -> Vec<u8> {
        let used = self.places_used();
        let post = self.dice.below(self.replay.desk.profile.posts.len()) as u32;
        if used.is_empty() || self.dice.one_in(5) {
            return match self.dice.below(3) {
                0 => second_line(any, self.post_not_there()),
                _ => second_line(any, post),
            };
        }
        let (place, call) = self.dice.pick(&used);
        match self.dice.below(4) {
            0 => second_line(place, self.post_not_there()),
            1 => second_line(place, call.post),
            _ => second_line(place, post),
        }
    }

    /// A cause for a call, of 5 bits or more; or for whatever the place holds, if anything.
    fn cause(&mut self, any: usize) -> Vec<u8> {
        let used = self.places_used();
        let place = if used.is_empty() || self.dice.one_in(5) {
            any
        } else {
            self.dice.pick(&used).0
        };
        let cause = match self.dice.below(4) {
            0 => self.dice.pick(&[32, 33, 64, 255]),
            _ => cause(&mut self.dice),
        };
        cause_line(place, cause)
    }

    pub(super) fn places_used(&self) -> Vec<(usize, Call)> {
        let places = self.replay.desk.places.iter().enumerate();
        places
            .filter_map(|(place, call)| Some((place, (*call)?)))
            .collect()
    }

    pub(super) fn post_not_there(&mut self) -> u32 {
        let count = self.replay.desk.profile.posts.len() as u32;
        self.dice.pick(&[count, 8, 255])
    }

    /// How many calls more bring the post to its ceiling.
    fn up_to_ceiling(&self, post: u32) -> usize {
        let desk = &self.replay.desk;
        let ceiling = desk.profile.posts[post as usize].ceiling;
        ceiling.saturating_sub(held(&desk.places, post)) as usize
    }

    /// How many calls more leave free just what is owed to the other posts.
    fn up_to_reserve(&self, post: u32) -> usize {
        let desk = &self.replay.desk;
        let used = desk.places.iter().flatten().count() as u32;
        let owed_to_others: u32 = (0..desk.profile.posts.len() as u32)
            .filter(|other| *other != post)
            .map(|other| owed(&desk.profile, &desk.places, other))
            .sum();
        PLACES.saturating_sub(used + owed_to_others) as usize
    }

    /// Calls for one post into free places, as many as asked for or one more, which is one
    /// too many where they were asked for by a share.
    fn put_calls(&mut self, post: u32, count: usize) -> Vec<u8> {
        let one_more = self.dice.below(2);
        let first = 1000 + self.dice.below(10_000) as u32;
        let places = self.replay.desk.places;
        let free = (0..places.len()).filter(|place| places[*place].is_none());
        for (put, place) in free.take(count + one_more).enumerate() {
            let identifier = first + put as u32;
            self.waiting.push_back(place_line(place, identifier, post));
        }
        for _ in 0..4 {
            let call = self.call();
            self.waiting.push_back(call);
        }
        b"dump".to_vec()
    }
}

pub(super) fn place_line(place: usize, identifier: u32, post: u32) -> Vec<u8> {
    format!("place {place} {identifier} {post}").into_bytes()
}

pub(super) fn second_line(place: usize, post: u32) -> Vec<u8> {
    format!("second {place} {post}").into_bytes()
}

pub(super) fn cause_line(place: usize, cause: u32) -> Vec<u8> {
    format!("cause {place} {cause}").into_bytes()
}
