//! DEACTIVATE in a history: cars of the post, of another one and of nobody, in every mix, marked
//! or not. A scene is the end of a shift: calls come for cars that are then released, and are
//! ended afterwards.

use super::calls::{message_line, post_line, set_up_cause, set_up_line};
use super::cast::Cast;
use super::moves::{end_line, ENDINGS};
use super::Source;
use crate::dice::Dice;
use crate::draw;
use crate::message::{Group, Message};
use crate::profile::Profile;
use crate::records::{record_of, Identity, Record};
use crate::script::MOST_OUTPUT;
use crate::user_fault;
use crate::write::{bits_of, bytes_of};

/// DEACTIVATE of this user from this post, by whatever range; others may be released with it.
pub(super) fn release_line(
    dice: &mut Dice,
    profile: &Profile,
    cast: &Cast,
    user: Identity,
    post: u32,
) -> Vec<u8> {
    let users = cast.users_of(dice, profile, &[user]);
    message_line(profile, post, &Message::Deactivate { users })
}

impl Source {
    /// Half of the time of cars that were chosen by what will come of them.
    pub(super) fn deactivate(&mut self) -> Vec<u8> {
        let post = self.post();
        let users = if self.dice.one_in(2) {
            self.cast.users(&mut self.dice, &self.replay.desk.profile)
        } else {
            self.users_by_outcome(post)
        };
        self.deactivate_line(post, users)
    }

    /// DEACTIVATE or its ACK, mostly one that isn't read.
    pub(super) fn faulty_deactivation(&mut self) -> Vec<u8> {
        let post = self.post();
        let bits = user_fault::deactivation(&mut self.dice, &self.replay.desk.profile);
        post_line(post, bits.len() as u32, &bytes_of(&bits))
    }

    /// DEACTIVATE or its ACK, good or with a fault, from a post that may not be there.
    pub(super) fn deactivate_amiss(&mut self, post: u32) -> Vec<u8> {
        let (dice, profile) = (&mut self.dice, &self.replay.desk.profile);
        let bits = match dice.below(4) {
            0 => user_fault::deactivation(dice, profile),
            1 => match draw::about_users(dice, profile, 5) {
                Some(ack) => bits_of(profile, &ack),
                None => user_fault::deactivation(dice, profile),
            },
            _ => {
                let users = self.cast.users(dice, profile);
                bits_of(profile, &Message::Deactivate { users })
            }
        };
        post_line(post, bits.len() as u32, &bytes_of(&bits))
    }

    fn deactivate_line(&self, post: u32, users: Group) -> Vec<u8> {
        message_line(
            &self.replay.desk.profile,
            post,
            &Message::Deactivate { users },
        )
    }

    fn activate_line(&self, post: u32, users: Group) -> Vec<u8> {
        let dispatchers = None;
        let message = Message::Activate { users, dispatchers };
        message_line(&self.replay.desk.profile, post, &message)
    }

    /// Identities of one sort, of two or of any: the post's with a mark, the post's without one,
    /// another post's, nobody's.
    fn users_by_outcome(&mut self, post: u32) -> Group {
        let records = &self.replay.records;
        let mut sorts: [Vec<Identity>; 4] = Default::default();
        for identity in self.cast.identities() {
            let sort = match record_of(records, identity).map(|number| records[number]) {
                Some(record) if record.post != post => 2,
                Some(Record { active: true, .. }) => 0,
                Some(_) => 1,
                None => 3,
            };
            sorts[sort].push(identity);
        }
        let wanted = match self.dice.below(4) {
            0 => 1 << self.dice.below(4),
            1 => 1 << self.dice.below(4) | 1 << self.dice.below(4),
            2 => 0b1111 ^ 1 << self.dice.below(4),
            _ => 0b1111,
        };
        // A few of each, so that those that are few come as often as those that are many.
        let mut chosen = Vec::new();
        for (sort, identities) in sorts.iter().enumerate() {
            if (wanted >> sort) & 1 == 1 && !identities.is_empty() {
                for _ in 0..4 {
                    chosen.push(self.dice.pick(identities));
                }
            }
        }
        if chosen.is_empty() {
            chosen.push(self.cast.identity(&mut self.dice));
        }
        let profile = &self.replay.desk.profile;
        self.cast.users_of(&mut self.dice, profile, &chosen)
    }

    /// ACTIVATE of some cars of a post, calls for them, DEACTIVATE of the same cars; then they are
    /// called again and asked about, the calls that waited are ended, and now and then the next
    /// shift begins.
    pub(super) fn shift(&mut self) -> Vec<u8> {
        let count = self.replay.desk.profile.posts.len();
        let post = self.dice.below(count) as u32;
        let cars = self.cars_of(post);
        let profile = &self.replay.desk.profile;
        let users = self.cast.users_of(&mut self.dice, profile, &cars);
        let first = self.activate_line(post, users.clone());
        let mut parties = Vec::new();
        for call in 0..1 + self.dice.below(3) as u32 {
            let pair = self.shift_parties(&cars);
            let identifier = self.shift_identifier(call);
            self.queue_set_up(pair, identifier);
            parties.push((pair, identifier));
        }
        let ((caller, called), identifier) = parties[0];
        if self.dice.one_in(3) {
            // It moves, if it has a second post, before the cars are released.
            self.queue_end(0, post, identifier);
        }
        let line = self.deactivate_line(post, users.clone());
        self.waiting.push_back(line);
        self.queue_released(post, &users, (caller, called));
        for (_, identifier) in &parties {
            let ending = self.dice.below(ENDINGS + 1);
            if ending < ENDINGS {
                let at = self.post_of_call(post, caller, called);
                self.queue_end(ending, at, *identifier);
            }
        }
        if self.dice.one_in(3) {
            let line = self.activate_line(post, users);
            self.waiting.push_back(line);
            self.queue_interrogate(post, caller);
            self.queue_set_up((caller, called), identifier);
        }
        if self.replay.output_bytes < MOST_OUTPUT {
            self.waiting.push_front(first);
            return format!("out {MOST_OUTPUT}").into_bytes();
        }
        first
    }

    /// What is asked right after a release: the cars again, their state, the same list once more.
    fn queue_released(&mut self, post: u32, users: &Group, parties: (Identity, Identity)) {
        if self.dice.one_in(3) {
            self.waiting.push_back(b"dump".to_vec());
        }
        if self.dice.one_in(3) {
            let line = self.deactivate_line(post, users.clone());
            self.waiting.push_back(line);
        }
        if self.dice.one_in(2) {
            self.queue_interrogate(post, parties.0);
        }
        if !self.dice.one_in(4) {
            let identifier = self.shift_identifier(9);
            self.queue_set_up(parties, identifier);
        }
    }

    fn queue_interrogate(&mut self, post: u32, car: Identity) {
        let user = self.cast.address_of(&mut self.dice, car);
        let profile = &self.replay.desk.profile;
        let line = message_line(profile, post, &Message::Interrogate { user });
        self.waiting.push_back(line);
    }

    fn queue_set_up(&mut self, parties: (Identity, Identity), identifier: u32) {
        let cause = set_up_cause(&mut self.dice);
        self.waiting
            .push_back(set_up_line(parties.0, parties.1, identifier, cause));
    }

    fn queue_end(&mut self, ending: usize, post: u32, identifier: u32) {
        let profile = &self.replay.desk.profile;
        let line = end_line(&mut self.dice, profile, ending, post, identifier);
        self.waiting.push_back(line);
    }

    /// Cars whose record is the post's, and now and then any other.
    fn cars_of(&mut self, post: u32) -> Vec<Identity> {
        let records = &self.replay.records;
        let own: Vec<Identity> = self
            .cast
            .identities()
            .into_iter()
            .filter(|car| {
                record_of(records, *car).map_or(false, |number| records[number].post == post)
            })
            .collect();
        let mut cars = Vec::new();
        for _ in 0..1 + self.dice.below(3) {
            cars.push(if own.is_empty() || self.dice.one_in(6) {
                self.cast.identity(&mut self.dice)
            } else {
                self.dice.pick(&own)
            });
        }
        cars
    }

    /// One of the cars calls somebody or is called, or two of them call each other.
    fn shift_parties(&mut self, cars: &[Identity]) -> (Identity, Identity) {
        let car = self.dice.pick(cars);
        let other = match self.dice.below(3) {
            0 => self.dice.pick(cars),
            1 => self.parties_of_two_posts().map_or(car, |pair| pair.0),
            _ => self.cast.identity(&mut self.dice),
        };
        if self.dice.one_in(2) {
            (car, other)
        } else {
            (other, car)
        }
    }

    /// One that nothing else in the histories uses, so that it mostly doesn't wait.
    fn shift_identifier(&mut self, call: u32) -> u32 {
        12_000 + 10 * self.dice.below(300) as u32 + call
    }

    /// Where the call most likely waits: the shift's post, or that of one of the parties.
    fn post_of_call(&mut self, post: u32, caller: Identity, called: Identity) -> u32 {
        let records = &self.replay.records;
        let party = self.dice.pick(&[None, None, Some(caller), Some(called)]);
        let record = party.and_then(|party| record_of(records, party));
        record.map_or(post, |number| records[number].post)
    }
}
