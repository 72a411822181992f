//! Short scenes in which calls have two grounds of refusal at once, so that their order shows: the
//! output area is too short, a waiting call has a cause over 5 bits, or a record isn't sound, and
//! something else is amiss with most calls that come until that is mended.

use super::calls::{cause, message_line, set_up_line, CAUSES_TOO_WIDE};
use super::damage::cause_line;
use super::lent::record_line;
use super::moves::{end_line, ENDINGS};
use super::Source;
use crate::draw;
use crate::records::Record;
use crate::script::MOST_OUTPUT;

impl Source {
    pub(super) fn two_grounds(&mut self) -> Vec<u8> {
        let used = self.places_used();
        let (first, last) = if self.dice.one_in(4) {
            self.bad_record_lines()
        } else if used.is_empty() || self.dice.one_in(2) {
            let bytes = self.dice.pick(&[0, 100, 299, 299, 299]);
            let out = |bytes: usize| format!("out {bytes}").into_bytes();
            (out(bytes), out(MOST_OUTPUT))
        } else {
            let (place, _) = self.dice.pick(&used);
            let too_wide = self.dice.pick(&[32, 33, 64, 255]);
            let good = cause(&mut self.dice);
            (cause_line(place, too_wide), cause_line(place, good))
        };
        for _ in 0..3 + self.dice.below(5) {
            let line = self.asked_amiss();
            self.waiting.push_back(line);
        }
        self.waiting.push_back(last);
        first
    }

    /// A record in use that isn't sound, while the output area is often too short as well; and
    /// the same record, sound.
    fn bad_record_lines(&mut self) -> (Vec<u8>, Vec<u8>) {
        let profile = &self.replay.desk.profile;
        let number = self.dice.below(30);
        let good = self.cast.record(&mut self.dice, profile);
        let mut bad = Record {
            in_use: true,
            ..good
        };
        match self.dice.below(3) {
            0 => bad.post = self.dice.pick(&[profile.posts.len() as u32, 8, 255]),
            1 => bad.ssi = self.dice.pick(&[1 << 24, u32::MAX]),
            _ => bad.extension = self.dice.pick(&[1 << 24, u32::MAX]),
        }
        if self.dice.one_in(2) {
            self.waiting.push_back(b"out 299".to_vec());
            for _ in 0..2 {
                let line = self.asked_amiss();
                self.waiting.push_back(line);
            }
            self.waiting
                .push_back(format!("out {MOST_OUTPUT}").into_bytes());
        }
        (record_line(number, &bad), record_line(number, &good))
    }

    /// Mostly a call that would be refused by what it is given, or by what waits.
    fn asked_amiss(&mut self) -> Vec<u8> {
        let calls = self.calls_waiting();
        let (identifier, mut post) = if calls.is_empty() || self.dice.one_in(3) {
            (self.new_identifier(), self.post())
        } else {
            let call = self.dice.pick(&calls);
            (call.identifier, call.post)
        };
        match self.dice.below(8) {
            0 => post = self.post_not_there(),
            1 | 2 => post = self.post(),
            _ => {}
        }
        let too_wide = self.dice.pick(&[1 << 14, u32::MAX]);
        match self.dice.below(17) {
            0 => {
                let (caller, called) = self.parties();
                let cause = self.dice.pick(&CAUSES_TOO_WIDE);
                set_up_line(caller, called, identifier, Some(cause))
            }
            1 => {
                let (caller, called) = self.parties();
                let cause = cause(&mut self.dice);
                set_up_line(caller, called, identifier, Some(cause))
            }
            2 => format!("reject {} {too_wide}", self.post_not_there()).into_bytes(),
            3 => format!("reject {post} {too_wide}").into_bytes(),
            4 => format!("cancel {too_wide}").into_bytes(),
            5 => {
                let profile = &self.replay.desk.profile;
                let message = draw::about_waiting_call(&mut self.dice, profile);
                message_line(profile, post, &message)
            }
            6 => b"dump".to_vec(),
            7..=9 => self.deactivate_amiss(post),
            10 | 11 => self.interrogate(),
            12 => self.interrogate_ack(),
            _ => {
                let ending = 2 + self.dice.below(ENDINGS - 2);
                let profile = &self.replay.desk.profile;
                end_line(&mut self.dice, profile, ending, post, identifier)
            }
        }
    }
}
