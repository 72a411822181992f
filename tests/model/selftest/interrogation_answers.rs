//! What INTERROGATE is answered, told once more from the profile, the records and the line, bit by
//! bit; and wrong readings of it. Each has to differ from the model's answers in the histories, or
//! these would not show a product that reads the request so.

use super::ledger::Ledger;
use super::Report;
use crate::event::named;
use crate::message::{read, Address, Message};
use crate::profile::{Meaning, Profile};
use crate::records::{Record, MOST_RECORDS};
use crate::script::Line;
use crate::step::Step;
use std::io;

named! { Wrong, WRONGS:
    HighestRange: "the highest range value that means a list of one",
    AlwaysRange1: "range value 1 whatever it means",
    ReasonAccepted: "a reason with accepted",
    ReasonsSwapped: "the two reasons swapped",
    ReasonsOfSample: "the reasons 1 and 2 whatever the profile has",
    ReasonsOf7Bits: "U and N as the reasons",
    Inverted: "activation type inverted",
    NoOBit: "no O-bit where it isn't accepted",
    NoOBitAtAll: "no O-bit",
    StateNotAccepted: "the state's elements where it isn't accepted too",
    AddressAtHome: "kind 1 for an address with the home extension",
    AddressFar: "kind 2 for every address",
    WithMask: "a mask of one bit",
    Interception1: "interception type 1",
    Services1: "basic services of 1",
    OtherPostAccepted: "another post's user accepted",
    RequestType: "INTERROGATE's own type",
    Without14: "no 14",
    Without26: "no 26, with range value 1",
    From15To14: "15 before 14",
    From26To15: "26 before 15",
    From26To14: "26 before 14",
    Only26Accepted: "26 only where it would be accepted",
}

/// Where a wrong reading was given another answer.
pub(super) struct Differed {
    times: Vec<usize>,
    /// INTERROGATEs that were looked at, and those that the right reading tells otherwise.
    pub(super) asked: usize,
    pub(super) told_otherwise: usize,
}

impl Differed {
    pub(super) fn new() -> Self {
        Differed {
            times: vec![0; WRONGS.len()],
            asked: 0,
            told_otherwise: 0,
        }
    }

    pub(super) fn look(&mut self, ledger: &Ledger, line: &Line, step: Step) {
        let profile = &step.before.desk.profile;
        let (post, user) = match line {
            Line::Post { post, bits, bytes } => match read(profile, bytes, *bits) {
                Ok(Message::Interrogate { user }) => (*post, user),
                _ => return,
            },
            _ => return,
        };
        self.asked += 1;
        let asked = Asked {
            profile,
            records: &step.before.records,
            sound: ledger.is_sound(),
            long_enough: step.before.output_bytes >= 300,
            post,
            user,
        };
        self.told_otherwise += usize::from(asked.answer(None) != step.answer);
        for (times, (wrong, _)) in self.times.iter_mut().zip(WRONGS) {
            *times += usize::from(asked.answer(Some(*wrong)) != step.answer);
        }
    }

    pub(super) fn check(&self, report: &mut Report, of: &str) -> io::Result<()> {
        for (times, (_, words)) in self.times.iter().zip(WRONGS) {
            let what = format!("{of} {words} would be found {times} times");
            report.check(&what, *times >= 10)?;
        }
        Ok(())
    }
}

struct Asked<'a> {
    profile: &'a Profile,
    records: &'a [Record],
    sound: bool,
    long_enough: bool,
    post: u32,
    user: Address,
}

impl Asked<'_> {
    fn answer(&self, wrong: Option<Wrong>) -> String {
        let word = self.word();
        let accepted = word == "active" || word == "not-active";
        let lists: Vec<usize> = (0..16)
            .filter(|range| self.profile.meanings[*range] == Meaning::List(1))
            .collect();
        let mut grounds = vec![
            (!self.sound, 1),
            (self.post as usize >= self.profile.posts.len(), 2),
            (!self.long_enough, 14),
            (!self.records_sound(), 15),
            (lists.is_empty(), 26),
        ];
        match wrong {
            Some(Wrong::Without14) => grounds[2].0 = false,
            Some(Wrong::Without26) | Some(Wrong::AlwaysRange1) => grounds[4].0 = false,
            Some(Wrong::From15To14) => grounds.swap(2, 3),
            Some(Wrong::From26To15) => grounds.swap(3, 4),
            Some(Wrong::From26To14) => grounds[2..].rotate_right(1),
            Some(Wrong::Only26Accepted) => grounds[4].0 &= accepted,
            _ => {}
        }
        if let Some((_, number)) = grounds.iter().find(|(ground, _)| *ground) {
            return format!("refused {number}");
        }
        let range = match wrong {
            Some(Wrong::HighestRange) => lists[lists.len() - 1],
            Some(Wrong::AlwaysRange1) => 1,
            _ => lists.first().copied().unwrap_or(1),
        };
        let bits = self.header(wrong, range) + &self.content(wrong, word, accepted);
        format!("state {word} {} {}", bits.len(), hex(&bits))
    }

    fn word(&self) -> &'static str {
        let extension = match self.user.kind {
            1 => self.profile.home_extension,
            _ => self.user.extension,
        };
        for record in self.records.iter().filter(|record| record.in_use) {
            if (record.ssi, record.extension) == (self.user.ssi, extension) {
                return match (record.post == self.post, record.active) {
                    (false, _) => "other-post",
                    (true, true) => "active",
                    (true, false) => "not-active",
                };
            }
        }
        "no-record"
    }

    fn records_sound(&self) -> bool {
        let posts = self.profile.posts.len() as u32;
        let sound = |record: &Record| {
            !record.in_use
                || record.post < posts && record.ssi <= 0xFF_FFFF && record.extension <= 0xFF_FFFF
        };
        self.records.len() <= MOST_RECORDS && self.records.iter().all(sound)
    }

    /// All up to the mask, in bits.
    fn header(&self, wrong: Option<Wrong>, range: usize) -> String {
        let Address {
            mut kind,
            ssi,
            mut extension,
        } = self.user;
        let home = self.profile.home_extension;
        match wrong {
            Some(Wrong::AddressAtHome) if kind == 2 && extension == home => kind = 1,
            Some(Wrong::AddressFar) if kind == 1 => (kind, extension) = (2, home),
            _ => {}
        }
        let pdu_type = match wrong {
            Some(Wrong::RequestType) => 8,
            _ => 9,
        };
        let ss_type = self.profile.ss_type;
        let mut bits = format!("{ss_type:06b}{pdu_type:05b}{range:04b}{kind:02b}{ssi:024b}");
        if kind == 2 {
            bits.push_str(&format!("{extension:024b}"));
        }
        bits.push_str(match wrong {
            Some(Wrong::WithMask) => "11",
            _ => "0",
        });
        bits
    }

    /// Result, what belongs to it, and the O-bit.
    fn content(&self, wrong: Option<Wrong>, word: &str, accepted: bool) -> String {
        let profile = self.profile;
        let mut reasons = [profile.failure_no_record, profile.failure_other_post];
        match wrong {
            Some(Wrong::ReasonsSwapped) => reasons.reverse(),
            Some(Wrong::ReasonsOfSample) => reasons = [1, 2],
            Some(Wrong::ReasonsOf7Bits) => {
                reasons = [profile.reason_no_record % 8, profile.reason_other_post % 8];
            }
            _ => {}
        }
        let reason = format!("{:03b}", reasons[usize::from(word != "no-record")]);
        let mut active = word == "active";
        if wrong == Some(Wrong::Inverted) {
            active = !active;
        }
        let state = match wrong {
            Some(Wrong::Interception1) => format!("{}10000", u8::from(active)),
            Some(Wrong::Services1) => format!("{}00101", u8::from(active)),
            _ => format!("{}00000", u8::from(active)),
        };
        let other_accepted = wrong == Some(Wrong::OtherPostAccepted) && word == "other-post";
        let o_bit = match wrong {
            Some(Wrong::NoOBit) if !accepted => "",
            Some(Wrong::NoOBitAtAll) => "",
            _ => "0",
        };
        match wrong {
            Some(Wrong::ReasonAccepted) if accepted => format!("1{reason}{state}{o_bit}"),
            Some(Wrong::StateNotAccepted) if !accepted => format!("0{reason}{state}{o_bit}"),
            _ if accepted || other_accepted => format!("1{state}{o_bit}"),
            _ => format!("0{reason}{o_bit}"),
        }
    }
}

fn hex(bits: &str) -> String {
    let mut padded = bits.to_string();
    while padded.len() % 8 != 0 {
        padded.push('0');
    }
    let mut hex = String::new();
    for four in padded.as_bytes().chunks(4) {
        let number = four.iter().fold(0, |number, bit| 2 * number + (bit - b'0'));
        hex.push_str(&format!("{number:X}"));
    }
    hex
}
