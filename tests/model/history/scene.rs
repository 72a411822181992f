//! Scenes of a history: the desk is brought to the edge of a share, and then a call of two posts
//! is asked. The lines are drawn ahead, on the places as they will be.

use super::calls::{set_up_cause, set_up_line};
use super::cast::Cast;
use super::damage::{cause_line, place_line, second_line};
use super::deactivations::release_line;
use super::lent::record_line;
use super::moves::{end_line, ENDINGS};
use super::{profiles, Source};
use crate::dice::Dice;
use crate::places::{
    admits, held, lowest_free, place_of, places_keep_rules, without, Call, Places, ALL_FREE,
};
use crate::profile::{Profile, PLACES};
use crate::records::{records_keep_rules, Identity, Record};
use crate::script::MOST_OUTPUT;
use std::collections::VecDeque;

impl Source {
    pub(super) fn scene(&mut self) -> Vec<u8> {
        let profile = &self.replay.desk.profile;
        let mut scene = Scene {
            profile,
            cast: &self.cast,
            by_set_up: records_keep_rules(profile, &self.replay.records) && !self.dice.one_in(4),
            places: self.replay.desk.places,
            last_identifier: 1000 + self.dice.below(10_000) as u32,
            dice: &mut self.dice,
            lines: VecDeque::new(),
        };
        scene.play();
        self.waiting.extend(scene.lines);
        format!("out {MOST_OUTPUT}").into_bytes()
    }
}

struct Scene<'a> {
    dice: &'a mut Dice,
    profile: &'a Profile,
    cast: &'a Cast,
    by_set_up: bool,
    places: Places,
    last_identifier: u32,
    lines: VecDeque<Vec<u8>>,
}

/// The call that a scene is about; the parties are those of its set-up, if it had one.
struct Asked {
    place: usize,
    identifier: u32,
    first: u32,
    second: u32,
    /// None where no line gives one, which is a cause of 0.
    cause: Option<u32>,
    caller: Identity,
    called: Identity,
}

impl Scene<'_> {
    fn play(&mut self) {
        if !places_keep_rules(self.profile, &self.places) || self.dice.one_in(3) {
            self.lines.push_back(profiles::line(self.profile));
            self.places = ALL_FREE;
        }
        for _ in 0..self.dice.below(4) {
            let post = self.post();
            self.put(post);
        }
        let asked = self.enter();
        self.fill(&asked);
        if self.by_set_up && self.dice.one_in(4) {
            self.release(&asked);
        } else if self.by_set_up && !self.dice.one_in(3) {
            self.change_record(&asked);
        }
        if self.dice.one_in(8) {
            self.lines.push_back(b"out 299".to_vec());
            self.end(0, asked.first, &asked);
            let ending = 1 + self.dice.below(ENDINGS - 1);
            let post = self.dice.pick(&[asked.first, asked.second]);
            self.end(ending, post, &asked);
            self.lines.push_back(b"out 300".to_vec());
        }
        if self.dice.one_in(5) {
            self.end(0, asked.second, &asked);
        }
        self.end(0, asked.first, &asked);
        let rest = without(&self.places, asked.place);
        if admits(self.profile, &rest, asked.second) {
            self.after_move(&asked);
        } else {
            self.after_refusal(&asked);
        }
    }

    fn post(&mut self) -> u32 {
        self.dice.below(self.profile.posts.len()) as u32
    }

    /// A post that calls can be for: not so one without a reserved number where the others have
    /// all places reserved.
    fn first_post(&mut self) -> u32 {
        loop {
            let post = self.post();
            if admits(self.profile, &ALL_FREE, post) {
                return post;
            }
        }
    }

    /// The call comes in by a set-up of two marked parties, or straight into its place.
    fn enter(&mut self) -> Asked {
        let first = self.first_post();
        let second = match self.dice.below(6) {
            0 => first,
            _ => self.post(),
        };
        while !admits(self.profile, &self.places, first) {
            let places = self.used(|_| true);
            self.take_out(&places);
        }
        let asked = Asked {
            place: lowest_free(&self.places).expect("the places rule left a place free"),
            identifier: self.new_identifier(),
            first,
            second,
            cause: set_up_cause(self.dice),
            caller: self.cast.identity(self.dice),
            called: self.cast.identity(self.dice),
        };
        self.by_set_up &= first != second && asked.caller != asked.called;
        if self.by_set_up {
            self.mark(0, asked.caller, first);
            self.mark(1, asked.called, second);
            self.set_up(&asked, asked.cause);
        } else {
            self.lines
                .push_back(place_line(asked.place, asked.identifier, first));
            self.lines.push_back(second_line(asked.place, second));
            if let Some(cause) = asked.cause {
                self.lines.push_back(cause_line(asked.place, cause));
            }
        }
        self.wait_at(&asked, first, Some(second));
        asked
    }

    /// Calls put straight into places, so that the move meets an edge of the places rule.
    fn fill(&mut self, asked: &Asked) {
        let first = &self.profile.posts[asked.first as usize];
        let second = &self.profile.posts[asked.second as usize];
        let edge = if asked.first == asked.second {
            self.dice.pick(&[0, 3, 3, 6])
        } else {
            self.dice.below(7)
        };
        match edge {
            0 => self.put_up_to(asked.second, second.ceiling),
            1 => self.put_up_to(asked.second, second.ceiling - 1),
            2 => {
                self.put_up_to(asked.second, second.reserved);
                self.put_all_but(asked.first, asked.second);
            }
            3 => {
                self.put_up_to(asked.first, first.reserved);
                self.put_up_to(asked.second, second.reserved);
                self.put_all_but(asked.first, asked.second);
            }
            4 => {
                self.put_up_to(asked.first, first.reserved + 1);
                self.put_all_but(asked.first, asked.second);
            }
            5 => self.put_all_but(asked.second, asked.second),
            _ => {}
        }
    }

    /// Calls for all posts but one, until the places rule says no or only one more would fit at
    /// the second post.
    fn put_all_but(&mut self, spared: u32, second: u32) {
        loop {
            let open: Vec<u32> = (0..self.profile.posts.len() as u32)
                .filter(|post| *post != spared && admits(self.profile, &self.places, *post))
                .filter(|post| {
                    let ceiling = self.profile.posts[*post as usize].ceiling;
                    *post != second || held(&self.places, second) + 1 < ceiling
                })
                .collect();
            if open.is_empty() {
                return;
            }
            let post = self.dice.pick(&open);
            self.put(post);
        }
    }

    fn put_up_to(&mut self, post: u32, count: u32) {
        for _ in held(&self.places, post)..count {
            self.put(post);
        }
    }

    /// One call for the post, if the places rule lets it in.
    fn put(&mut self, post: u32) {
        if admits(self.profile, &self.places, post) {
            let place = lowest_free(&self.places).expect("the places rule left a place free");
            let identifier = self.new_identifier();
            self.lines.push_back(place_line(place, identifier, post));
            self.places[place] = Some(Call {
                identifier,
                post,
                second: None,
                cause: 0,
            });
        }
    }

    fn new_identifier(&mut self) -> u32 {
        loop {
            self.last_identifier += 1;
            if place_of(&self.places, self.last_identifier).is_none() {
                return self.last_identifier;
            }
        }
    }

    /// The places whose calls are such.
    fn used(&self, such: impl Fn(Call) -> bool) -> Vec<usize> {
        (0..PLACES as usize)
            .filter(|place| self.places[*place].map_or(false, &such))
            .collect()
    }

    fn take_out(&mut self, places: &[usize]) {
        let place = self.dice.pick(places);
        self.lines
            .push_back(format!("unplace {place}").into_bytes());
        self.places[place] = None;
    }

    fn mark(&mut self, number: usize, party: Identity, post: u32) {
        let record = Record {
            in_use: true,
            ssi: party.ssi,
            extension: party.extension,
            post,
            active: true,
        };
        self.lines.push_back(record_line(number, &record));
    }

    /// The called party's record as it was not at set-up: mostly of a third post, if there is
    /// one, and now and then without its mark or not in use.
    fn change_record(&mut self, asked: &Asked) {
        let others: Vec<u32> = (0..self.profile.posts.len() as u32)
            .filter(|post| *post != asked.first && *post != asked.second)
            .collect();
        let post = if others.is_empty() || self.dice.one_in(4) {
            asked.first
        } else {
            self.dice.pick(&others)
        };
        let record = Record {
            in_use: !self.dice.one_in(8),
            ssi: asked.called.ssi,
            extension: asked.called.extension,
            post,
            active: !self.dice.one_in(8),
        };
        self.lines.push_back(record_line(1, &record));
    }

    /// The caller or the called party is released by its own post, and the call stays.
    fn release(&mut self, asked: &Asked) {
        let (party, post) = self
            .dice
            .pick(&[(asked.caller, asked.first), (asked.called, asked.second)]);
        let line = release_line(self.dice, self.profile, self.cast, party, post);
        self.lines.push_back(line);
    }

    fn set_up(&mut self, asked: &Asked, cause: Option<u32>) {
        self.lines.push_back(set_up_line(
            asked.caller,
            asked.called,
            asked.identifier,
            cause,
        ));
    }

    fn end(&mut self, ending: usize, post: u32, asked: &Asked) {
        self.lines.push_back(end_line(
            self.dice,
            self.profile,
            ending,
            post,
            asked.identifier,
        ));
    }

    fn wait_at(&mut self, asked: &Asked, post: u32, second: Option<u32>) {
        self.places[asked.place] = Some(Call {
            identifier: asked.identifier,
            post,
            second,
            cause: asked.cause.unwrap_or(0),
        });
    }

    /// The first post comes too late, now and then a third one is named, and the call is ended
    /// where it waits, or stays.
    fn after_move(&mut self, asked: &Asked) {
        self.wait_at(asked, asked.second, None);
        if self.dice.one_in(2) {
            let ending = self.dice.pick(&[0, 0, 0, 1, 2, 4]);
            self.end(ending, asked.first, asked);
        }
        let mut post = asked.second;
        if self.dice.one_in(6) {
            let third = self.post();
            self.lines.push_back(second_line(asked.place, third));
            self.end(0, post, asked);
            if admits(self.profile, &without(&self.places, asked.place), third) {
                post = third;
            }
        }
        if self.by_set_up && self.dice.one_in(3) {
            self.release(asked);
        }
        if self.dice.one_in(3) {
            self.lines.push_back(b"dump".to_vec());
        }
        let ending = self.dice.below(7);
        if ending < ENDINGS {
            self.end(ending, post, asked);
            // Its place and its identifier are used again, mostly with another cause.
            if self.dice.one_in(2) {
                let cause = set_up_cause(self.dice);
                self.set_up(asked, cause);
            }
        }
    }

    /// The call is asked again, is ended where it stayed, or moves after another has gone.
    fn after_refusal(&mut self, asked: &Asked) {
        match self.dice.below(5) {
            0 => self.end(0, asked.first, asked),
            1 => {
                let ending = 1 + self.dice.below(ENDINGS - 1);
                self.end(ending, asked.first, asked);
            }
            2 => self.lines.push_back(b"dump".to_vec()),
            _ => {
                let others = self.used(|call| call.post == asked.second);
                if !others.is_empty() {
                    self.take_out(&others);
                    self.end(0, asked.first, asked);
                    self.after_move(asked);
                }
            }
        }
    }
}
