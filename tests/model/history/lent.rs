//! What the host lends beside the desk, set anew by lines of a history: records and output area.

use super::calls::cause;
use super::damage::{cause_line, place_line, second_line};
use super::Source;
use crate::places::{places_keep_rules, Call};
use crate::profile::Profile;
use crate::records::{records_keep_rules, Record, MOST_RECORDS};
use crate::script::MOST_OUTPUT;

impl Source {
    /// Records for the cast; those that the profile makes bad are mostly drawn anew.
    pub(super) fn draw_records(&mut self, profile: &Profile) {
        for number in 0..self.replay.records.len() {
            let bad = !records_keep_rules(profile, &self.replay.records[number..=number]);
            if bad && !self.dice.one_in(10) {
                let record = self.cast.record(&mut self.dice, profile);
                self.waiting.push_back(record_line(number, &record));
            }
        }
        for _ in 0..5 + self.dice.below(30) {
            let record = self.cast.record(&mut self.dice, profile);
            let number = self.record_number();
            self.waiting.push_back(record_line(number, &record));
        }
    }

    /// From here on over 128 records are lent, at first just one too many.
    pub(super) fn begin_many_records(&mut self) {
        self.many_records = true;
        self.waiting
            .push_front(record_line(MOST_RECORDS, &Record::default()));
    }

    fn record_number(&mut self) -> usize {
        if self.many_records {
            return self.dice.below(2 * MOST_RECORDS);
        }
        match self.dice.below(40) {
            0 => self.dice.below(MOST_RECORDS),
            _ => self.dice.below(30),
        }
    }

    /// A record set anew while the desk works; now and then one that isn't sound.
    pub(super) fn record_line(&mut self) -> Vec<u8> {
        let profile = &self.replay.desk.profile;
        let mut record = self.cast.record(&mut self.dice, profile);
        if self.dice.one_in(4) {
            match self.dice.below(3) {
                0 => record.post = self.dice.pick(&[profile.posts.len() as u32, 8, 255]),
                1 => record.ssi = self.dice.pick(&[1 << 24, u32::MAX]),
                _ => record.extension = self.dice.pick(&[1 << 24, u32::MAX]),
            }
        }
        record_line(self.record_number(), &record)
    }

    pub(super) fn output_line(&mut self) -> Vec<u8> {
        let bytes = self.dice.pick(&[0, 1, 100, 200, 298, 299, 299, 300]);
        format!("out {bytes}").into_bytes()
    }

    /// Takes back one thing that makes calls be refused, if there is one.
    pub(super) fn repair(&mut self) -> Option<Vec<u8>> {
        if self.replay.output_bytes < MOST_OUTPUT {
            return Some(format!("out {MOST_OUTPUT}").into_bytes());
        }
        let profile = &self.replay.desk.profile;
        if !places_keep_rules(profile, &self.replay.desk.places) {
            return Some(self.repair_places());
        }
        let bad = (0..self.replay.records.len())
            .find(|number| !records_keep_rules(profile, &self.replay.records[*number..=*number]))?;
        let record = self.cast.record(&mut self.dice, profile);
        Some(record_line(bad, &record))
    }

    /// Names another second post or another cause where that is what damages the desk, or puts
    /// the call anew, or frees up to eight used places.
    fn repair_places(&mut self) -> Vec<u8> {
        let places = &self.replay.desk.places;
        let posts = self.replay.desk.profile.posts.len();
        for (place, call) in places.iter().enumerate() {
            let Call {
                identifier,
                post,
                second,
                cause: its_cause,
            } = match *call {
                Some(call) => call,
                None => continue,
            };
            let bad_second = second.map_or(false, |second| second as usize >= posts);
            let bad_cause = its_cause >= 1 << 5;
            if bad_second || bad_cause {
                return match self.dice.below(3) {
                    0 if bad_second => second_line(place, self.dice.below(posts) as u32),
                    0 => cause_line(place, cause(&mut self.dice)),
                    1 => place_line(place, identifier, post),
                    _ => format!("unplace {place}").into_bytes(),
                };
            }
        }
        let used: Vec<usize> = (0..places.len())
            .filter(|place| places[*place].is_some())
            .collect();
        for _ in 0..self.dice.below(8) {
            let place = self.dice.pick(&used);
            self.waiting
                .push_back(format!("unplace {place}").into_bytes());
        }
        format!("unplace {}", self.dice.pick(&used)).into_bytes()
    }
}

pub(super) fn record_line(number: usize, record: &Record) -> Vec<u8> {
    format!(
        "record {number} {} {} {} {} {}",
        u32::from(record.in_use),
        record.ssi,
        record.extension,
        record.post,
        u32::from(record.active)
    )
    .into_bytes()
}
