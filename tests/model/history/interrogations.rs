//! INTERROGATE in a history, from every sort of post and about every sort of user, while the output
//! area is too short or a record isn't sound; and INTERROGATE ACK, which posts don't send.

use super::calls::{message_line, post_line};
use super::lent::record_line;
use super::Source;
use crate::draw;
use crate::interrogation_fault::{interrogation, longest};
use crate::message::{Address, Message};
use crate::records::{Identity, Record};
use crate::script::MOST_OUTPUT;
use crate::write::{bits_of, bytes_of};

impl Source {
    /// Half of the time of a record's identity, and then mostly from the record's post.
    pub(super) fn interrogate(&mut self) -> Vec<u8> {
        let mut user = self.cast.address(&mut self.dice);
        let mut post = self.post();
        if !self.replay.records.is_empty() && self.dice.one_in(2) {
            let record = self.dice.pick(&self.replay.records);
            user = self.address_of_record(&record);
            if !self.dice.one_in(4) {
                post = record.post;
            }
        }
        let message = Message::Interrogate { user };
        message_line(&self.replay.desk.profile, post, &message)
    }

    fn address_of_record(&mut self, record: &Record) -> Address {
        let identity = Identity {
            ssi: record.ssi % (1 << 24),
            extension: record.extension % (1 << 24),
        };
        self.cast.address_of(&mut self.dice, identity)
    }

    /// INTERROGATE ACK from a post: good, with a fault, or as long as the profile allows, whole or
    /// cut.
    pub(super) fn interrogate_ack(&mut self) -> Vec<u8> {
        let post = self.post();
        let (dice, profile) = (&mut self.dice, &self.replay.desk.profile);
        let message = match dice.below(12) {
            0..=8 => None,
            9 => longest(dice, profile),
            _ => draw::about_users(dice, profile, 9),
        };
        let mut bits = match message {
            Some(message) => bits_of(profile, &message),
            None => interrogation(dice, profile),
        };
        if bits.len() > 2048 && dice.one_in(4) {
            bits.truncate(2000 + dice.below(bits.len() - 2000));
        }
        post_line(post, bits.len() as u32, &bytes_of(&bits))
    }

    /// A few of both in a row, mostly under one ground of refusal, or under two.
    pub(super) fn interrogations(&mut self) -> Vec<u8> {
        let short = self.dice.one_in(3);
        let record = self.dice.one_in(3).then(|| self.dice.below(30));
        let mut lines = Vec::new();
        if let Some(number) = record {
            lines.push(self.unsound_record(number));
        }
        if short {
            let bytes = self.dice.pick(&[0, 100, 299, 299]);
            lines.push(format!("out {bytes}").into_bytes());
        }
        for _ in 0..3 + self.dice.below(4) {
            lines.push(match self.dice.below(4) {
                0 => self.interrogate_ack(),
                _ => self.interrogate(),
            });
        }
        if short {
            lines.push(format!("out {MOST_OUTPUT}").into_bytes());
            for _ in 0..2 {
                lines.push(self.interrogate());
            }
        }
        if let Some(number) = record {
            let profile = &self.replay.desk.profile;
            let good = self.cast.record(&mut self.dice, profile);
            lines.push(record_line(number, &good));
            lines.push(self.interrogate());
        }
        self.waiting.extend(lines);
        self.interrogate()
    }

    fn unsound_record(&mut self, number: usize) -> Vec<u8> {
        let profile = &self.replay.desk.profile;
        let mut bad = Record {
            in_use: true,
            ..self.cast.record(&mut self.dice, profile)
        };
        match self.dice.below(3) {
            0 => bad.post = self.dice.pick(&[profile.posts.len() as u32, 8, 255]),
            1 => bad.ssi = self.dice.pick(&[1 << 24, u32::MAX]),
            _ => bad.extension = self.dice.pick(&[1 << 24, u32::MAX]),
        }
        record_line(number, &bad)
    }
}
