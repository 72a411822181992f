//! What is tried after a change, or after a refused one: set-ups, moves and places that other shares
//! than those in force would judge otherwise.

use super::ShareScene;
use crate::history::damage::second_line;
use crate::history::moves::ENDINGS;
use crate::history::share_rows::{Aim, TAKEN};
use crate::places::{admits, held, lowest_free, places_keep_rules, without, Call};
use crate::profile::{Post, Profile};

impl ShareScene<'_> {
    pub(super) fn try_against(&mut self, other: &[Post]) {
        match self.dice.below(8) {
            0..=3 => self.set_up_by(other),
            4 | 5 => self.move_by(other),
            6 => self.place_by(other),
            _ => {
                self.set_up_by(other);
                self.place_by(other);
            }
        }
    }

    /// A set-up that other shares would judge otherwise, if a few calls more bring the desk to
    /// where they do; else any.
    pub(super) fn set_up_by(&mut self, other: &[Post]) {
        let other = self.with(other);
        for _ in 0..8 {
            let profile = &self.replay.desk.profile;
            let mut posts = self.posts();
            posts.retain(|post| self.admits(profile, *post) != self.admits(&other, *post));
            if !posts.is_empty() {
                let post = self.dice.pick(&posts);
                self.set_up(post);
                return;
            }
            // The post that is nearest to one of its two ceilings.
            let nearest = self
                .open_posts()
                .into_iter()
                .filter(|post| {
                    let post = *post as usize;
                    profile.posts[post].ceiling != other.posts[post].ceiling
                })
                .min_by_key(|post| self.below_lower_ceiling(&other, *post));
            match nearest {
                Some(post) if self.below_lower_ceiling(&other, post) <= 8 => self.put(post),
                _ => break,
            }
        }
        let post = self.dice.pick(&self.posts());
        self.set_up(post);
    }

    fn below_lower_ceiling(&self, other: &Profile, post: u32) -> u32 {
        let own = &self.replay.desk.profile.posts[post as usize];
        let lower = own.ceiling.min(other.posts[post as usize].ceiling);
        lower.saturating_sub(held(&self.replay.desk.places, post))
    }

    /// An ACCEPT of a call of two posts, if there is one that other shares would move otherwise.
    /// A call without a second post may be given one for it.
    pub(super) fn move_by(&mut self, other: &[Post]) {
        let other = self.with(other);
        let desk = &self.replay.desk;
        let mut moves = Vec::new();
        for (place, call) in desk.places.iter().enumerate() {
            let rest = without(&desk.places, place);
            for second in self.posts() {
                let differ = admits(&desk.profile, &rest, second) != admits(&other, &rest, second);
                if let (Some(call), true) = (call, differ) {
                    moves.push((place, *call, second));
                }
            }
        }
        if moves.is_empty() {
            self.move_some();
            return;
        }
        let of_two: Vec<_> = moves
            .iter()
            .copied()
            .filter(|(_, call, second)| call.second == Some(*second))
            .collect();
        if of_two.is_empty() {
            let (place, call, second) = self.dice.pick(&moves);
            self.say(second_line(place, second));
            self.end(0, call);
        } else {
            let (_, call, _) = self.dice.pick(&of_two);
            self.end(0, call);
        }
    }

    /// An ACCEPT of a call of two posts, which often goes to another post.
    pub(super) fn move_some(&mut self) {
        let mut calls: Vec<Call> = self.calls();
        calls.retain(|call| call.second.map_or(false, |second| second != call.post));
        if !calls.is_empty() {
            let call = self.dice.pick(&calls);
            self.end(0, call);
        }
    }

    /// A call put where the desk becomes unsound by the shares in force and not by others, or the
    /// other way round; calls on that desk; and the place freed where it was unsound.
    fn place_by(&mut self, other: &[Post]) {
        let other = self.with(other);
        let desk = &self.replay.desk;
        let place = match lowest_free(&desk.places) {
            Some(place) => place,
            None => return,
        };
        let mut posts = self.posts();
        posts.retain(|post| {
            let mut places = desk.places;
            places[place] = Some(Call {
                identifier: self.last_identifier + 1,
                post: *post,
                second: None,
                cause: 0,
            });
            places_keep_rules(&desk.profile, &places) != places_keep_rules(&other, &places)
        });
        if posts.is_empty() {
            return;
        }
        let post = self.dice.pick(&posts);
        self.put(post);
        self.ask_anything();
        let desk = &self.replay.desk;
        if !places_keep_rules(&desk.profile, &desk.places) {
            self.change_by(&[Aim::Fit, Aim::BreakRule, Aim::OverCeiling]);
            self.say(format!("unplace {place}").into_bytes());
        }
    }

    /// A call that is carried out where the desk is sound.
    fn ask_anything(&mut self) {
        match self.dice.below(3) {
            0 => {
                let post = self.dice.pick(&self.posts());
                self.set_up(post);
            }
            1 => {
                let call = self.dice.pick(&self.calls());
                let ending = self.dice.below(ENDINGS);
                self.end(ending, call);
            }
            _ => {
                self.change_by(&TAKEN);
            }
        }
    }
}
