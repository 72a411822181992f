//! A scene of new shares: calls are brought to the edges of the shares in force, the shares change
//! or are refused, and then it is tried which are in force. The lines are run on a copy as they are
//! drawn, so that each can aim at what is there.

mod trials;

use super::calls::{set_up_cause, set_up_line};
use super::cast::Cast;
use super::damage::{cause_line, place_line, second_line};
use super::lent::record_line;
use super::moves::{end_line, ENDINGS};
use super::profiles;
use super::share_rows::{self, fitting, line_with_rest, Aim, REFUSED_23, REFUSED_24, TAKEN};
use crate::dice::Dice;
use crate::places::{admits, held, lowest_free, place_of, places_keep_rules, Call};
use crate::profile::{Post, Profile, PLACES};
use crate::records::{records_keep_rules, Identity, Record, MOST_RECORDS};
use crate::replay::Replay;
use crate::script::{read_script_line, Line, MOST_OUTPUT};
use std::collections::VecDeque;

pub(super) struct ShareScene<'a> {
    pub dice: &'a mut Dice,
    pub cast: &'a Cast,
    /// The desk as it will be after the lines so far.
    pub replay: Replay,
    pub last_identifier: u32,
    /// Whose record names the post that a set-up is for.
    pub caller: Identity,
    pub lines: VecDeque<Vec<u8>>,
}

impl ShareScene<'_> {
    pub(super) fn play(&mut self) {
        self.say(format!("out {MOST_OUTPUT}").into_bytes());
        self.mend();
        self.fill();
        let first = self.shares();
        for _ in 0..2 + self.dice.below(4) {
            self.act();
        }
        match self.dice.below(6) {
            0 | 1 => {
                let changed = self.shares();
                self.open();
                self.set_up_by(&changed);
            }
            2 => {
                let line = profiles::bad_line(self.dice, &self.replay.desk.profile);
                self.say(line);
                self.set_up_by(&first);
            }
            _ => {}
        }
    }

    fn say(&mut self, line: Vec<u8>) -> String {
        let answer = self.replay.run(&line).unwrap_or_default();
        self.lines.push_back(line);
        answer
    }

    fn shares(&self) -> Vec<Post> {
        self.replay.desk.profile.posts.clone()
    }

    /// The profile in force with other shares.
    fn with(&self, posts: &[Post]) -> Profile {
        Profile {
            posts: posts.to_vec(),
            ..self.replay.desk.profile.clone()
        }
    }

    fn posts(&self) -> Vec<u32> {
        (0..self.replay.desk.profile.posts.len() as u32).collect()
    }

    fn admits(&self, profile: &Profile, post: u32) -> bool {
        admits(profile, &self.replay.desk.places, post)
    }

    /// A sound desk, now and then a new one, and sound records.
    fn mend(&mut self) {
        let desk = &self.replay.desk;
        if !places_keep_rules(&desk.profile, &desk.places) || self.dice.one_in(4) {
            self.open();
        }
        for number in 0..self.replay.records.len().min(MOST_RECORDS) {
            let record = &self.replay.records[number..=number];
            if !records_keep_rules(&self.replay.desk.profile, record) {
                self.say(record_line(number, &Record::default()));
            }
        }
    }

    /// A desk of the same profile, mostly with shares that it didn't have.
    fn open(&mut self) {
        let mut profile = self.replay.desk.profile.clone();
        if !self.dice.one_in(3) {
            let reserved = self.dice.below(PLACES as usize + 1) as u32;
            profile.posts = fitting(self.dice, &vec![0; profile.posts.len()], reserved);
        }
        self.say(profiles::line(&profile));
    }

    /// Few calls, some, or all that the shares let in; one post is favoured, so that it comes to
    /// its ceiling.
    fn fill(&mut self) {
        let most = match self.dice.below(3) {
            0 => 1 + self.dice.below(6),
            1 => 4 + self.dice.below(16),
            _ => PLACES as usize,
        };
        let favoured = self.dice.pick(&self.posts());
        for _ in 0..most {
            let open = self.open_posts();
            if open.is_empty() {
                return;
            }
            let post = if open.contains(&favoured) && self.dice.one_in(2) {
                favoured
            } else {
                self.dice.pick(&open)
            };
            match self.dice.below(8) {
                0 => {
                    self.set_up(post);
                }
                1 => self.put_of_two_posts(post),
                _ => self.put(post),
            }
        }
    }

    fn open_posts(&self) -> Vec<u32> {
        let profile = &self.replay.desk.profile;
        let posts = self.posts().into_iter();
        posts.filter(|post| self.admits(profile, *post)).collect()
    }

    fn new_identifier(&mut self) -> u32 {
        loop {
            self.last_identifier += 1;
            if place_of(&self.replay.desk.places, self.last_identifier).is_none() {
                return self.last_identifier;
            }
        }
    }

    /// A call straight into the lowest free place, if there is one.
    fn put(&mut self, post: u32) {
        if let Some(place) = lowest_free(&self.replay.desk.places) {
            let identifier = self.new_identifier();
            self.say(place_line(place, identifier, post));
        }
    }

    fn put_of_two_posts(&mut self, post: u32) {
        if let Some(place) = lowest_free(&self.replay.desk.places) {
            self.put(post);
            let second = self.dice.pick(&self.posts());
            self.say(second_line(place, second));
        }
    }

    /// A set-up for the post, by the caller's record; the called party is anybody.
    fn set_up(&mut self, post: u32) {
        let record = Record {
            in_use: true,
            ssi: self.caller.ssi,
            extension: self.caller.extension,
            post,
            active: true,
        };
        if self.replay.records.first() != Some(&record) {
            self.say(record_line(0, &record));
        }
        let called = self.cast.identity(self.dice);
        let identifier = self.new_identifier();
        let cause = set_up_cause(self.dice);
        self.say(set_up_line(self.caller, called, identifier, cause));
    }

    fn act(&mut self) {
        match self.dice.below(14) {
            0..=4 => self.change(),
            5 | 6 => self.refused(&REFUSED_24),
            7 | 8 => self.refused(&REFUSED_23),
            9 => self.damaged(),
            10 | 11 => self.around_a_move(),
            12 => self.beside_short_output(),
            _ => self.end_some(),
        }
    }

    fn change_by(&mut self, aims: &[Aim]) -> (String, Vec<Post>) {
        let aim = self.dice.pick(aims);
        let line = share_rows::line(self.dice, aim, &self.replay.desk);
        let mut rows = rows_of(&line);
        rows.truncate(self.replay.desk.profile.posts.len());
        (self.say(line), rows)
    }

    /// New shares, and what the old ones would judge otherwise; now and then a second change, and
    /// a change back.
    fn change(&mut self) {
        let old = self.shares();
        let (answer, _) = self.change_by(&TAKEN);
        if answer != "taken" {
            return;
        }
        if self.dice.one_in(8) {
            self.say(b"dump".to_vec());
        }
        self.try_against(&old);
        if self.dice.one_in(4) {
            self.change_by(&TAKEN);
            self.try_against(&old);
        }
        match self.dice.below(8) {
            0 | 1 => {
                let changed = self.shares();
                let line = line_with_rest(self.dice, &old);
                self.say(line);
                self.set_up_by(&changed);
            }
            2 => {
                let line = line_with_rest(self.dice, &self.shares());
                self.say(line);
            }
            _ => {}
        }
    }

    fn refused(&mut self, aims: &[Aim]) {
        let (_, rows) = self.change_by(aims);
        if self.dice.one_in(3) {
            self.set_up_by(&rows);
        }
    }

    /// Changes of every sort on a desk that isn't sound, among them one that would mend it.
    fn damaged(&mut self) {
        let place = match lowest_free(&self.replay.desk.places) {
            Some(place) => place,
            None => return,
        };
        let post = self.dice.pick(&self.posts());
        match self.dice.below(4) {
            0 => {
                self.say(place_line(place, 1 << 14, post));
            }
            1 => {
                self.put(post);
                self.say(second_line(place, 255));
            }
            2 => {
                self.put(post);
                self.say(cause_line(place, 32));
            }
            _ => {
                // One more than a ceiling of one, which new shares would mend.
                let line = line_with_rest(self.dice, &self.ceilings_at_held());
                self.say(line);
                self.put(post);
            }
        }
        for aims in [&TAKEN[..], &REFUSED_23, &REFUSED_24] {
            self.change_by(aims);
        }
        self.say(format!("unplace {place}").into_bytes());
    }

    /// Nothing reserved, and each ceiling as low as it may be.
    fn ceilings_at_held(&self) -> Vec<Post> {
        let places = &self.replay.desk.places;
        let ceiling = |post| held(places, post).max(1);
        let posts = self.posts().into_iter();
        posts
            .map(|post| Post {
                reserved: 0,
                ceiling: ceiling(post),
            })
            .collect()
    }

    /// A change before a call moves and after it.
    fn around_a_move(&mut self) {
        let old = self.shares();
        let open = self.open_posts();
        if let Some(post) = open.first() {
            let post = self.dice.pick(&[*post, open[open.len() - 1]]);
            self.put_of_two_posts(post);
        }
        if self.dice.one_in(2) {
            self.change_by(&TAKEN);
            self.move_by(&old);
        } else {
            self.move_some();
            let aims = self.dice.pick(&[
                Aim::CeilingAtHeld,
                Aim::OverCeiling,
                Aim::OverCeiling,
                Aim::FitJust,
                Aim::OverSum,
            ]);
            self.change_by(&[aims]);
        }
        self.end_some();
    }

    /// Neither the output area nor the records are asked about.
    fn beside_short_output(&mut self) {
        let bytes = self.dice.pick(&[0, 299]);
        self.say(format!("out {bytes}").into_bytes());
        let number = 1 + self.dice.below(20);
        let before = self.replay.records.get(number).copied();
        let unsound = Record {
            in_use: true,
            post: 255,
            ..Record::default()
        };
        self.say(record_line(number, &unsound));
        let aims = [TAKEN[0], TAKEN[1], REFUSED_24[0], REFUSED_23[0]];
        self.change_by(&aims);
        self.say(record_line(number, &before.unwrap_or_default()));
        self.say(format!("out {MOST_OUTPUT}").into_bytes());
    }

    fn calls(&self) -> Vec<Call> {
        self.replay.desk.places.iter().flatten().copied().collect()
    }

    fn end(&mut self, ending: usize, call: Call) {
        let line = end_line(
            self.dice,
            &self.replay.desk.profile,
            ending,
            call.post,
            call.identifier,
        );
        self.say(line);
    }

    /// Calls that waited while the shares changed.
    fn end_some(&mut self) {
        for _ in 0..1 + self.dice.below(3) {
            let calls = self.calls();
            if !calls.is_empty() {
                let call = self.dice.pick(&calls);
                let ending = self.dice.below(ENDINGS);
                self.end(ending, call);
            }
        }
    }
}

/// What the line gives, as it is read.
fn rows_of(line: &[u8]) -> Vec<Post> {
    match read_script_line(line) {
        Some(Line::Shares(rows)) => rows.to_vec(),
        _ => Vec::new(),
    }
}
