//! What a desk answers to INTERROGATE and to INTERROGATE ACK, and which profiles are taken, counted.

use super::events::Event;
use super::Counts;
use crate::event::pdu_type_of;
use crate::interrogate_ack::{Groups, InterrogateAck, Interrogation};
use crate::message::{read, Address, Message};
use crate::profile::{Meaning, Profile, MOST_POSTS};
use crate::records::{identity_of, record_of};
use crate::refusal::Refusal::BrokeOff;
use crate::step::Step;

impl Counts {
    pub(super) fn message(&mut self, step: Step, post: u32, bytes: &[u8], bits: usize) {
        let profile = &step.before.desk.profile;
        match read(profile, bytes, bits) {
            Ok(Message::Interrogate { user }) => self.interrogated(step, post, &user),
            Ok(Message::InterrogateAck(ack)) => self.ack_from_post(step, &ack, bits),
            Err(refusal) if pdu_type_of(profile, bytes, bits) == Some(9) => {
                let not_read = !["refused 1", "refused 2"].contains(&step.answer);
                let short = step.output_was_short();
                self.count_if(not_read && short, Event::AckNotReadBefore14);
                if let (BrokeOff { position, .. }, true) = (refusal, not_read) {
                    self.count_if(position > 2047, Event::Cut4Far);
                }
            }
            _ => {}
        }
    }

    fn interrogated(&mut self, step: Step, post: u32, user: &Address) {
        let profile = &step.before.desk.profile;
        let records = &step.before.records;
        let record = record_of(records, identity_of(profile, user)).map(|number| records[number]);
        let (short, unsound) = (step.output_was_short(), step.records_were_unsound());
        let no_list = lists_of_one(profile).is_empty();
        let words: Vec<&str> = step.answer.split(' ').collect();
        match words[..] {
            ["refused", "1"] => self.count(Event::Damage1),
            ["refused", "2"] => {
                self.count(Event::Post2);
                self.count_if(short, Event::Post2Before14);
            }
            ["refused", "14"] => {
                self.count_if(step.output_was_one_short(), Event::Output14);
                self.count_if(unsound, Event::Output14Before15);
                self.count_if(no_list, Event::Output14Before26);
            }
            ["refused", "15"] => {
                self.count(Event::Records15);
                self.count_if(no_list, Event::Records15Before26);
            }
            ["refused", "26"] => self.count(match record {
                None => Event::None26NoRecord,
                Some(record) if record.post != post => Event::None26Other,
                Some(_) => Event::None26Own,
            }),
            ["state", word, ..] => {
                self.state(word, user.kind);
                let home = user.kind == 2 && user.extension == profile.home_extension;
                self.count_if(home && word != "no-record", Event::HomeSaid);
                self.range_sent(profile);
                self.reason_sent(profile, word);
            }
            _ => {}
        }
    }

    fn state(&mut self, word: &str, kind: u32) {
        self.count(match (word, kind) {
            ("no-record", 1) => Event::NoRecordHome,
            ("no-record", _) => Event::NoRecordFar,
            ("other-post", 1) => Event::OtherPostHome,
            ("other-post", _) => Event::OtherPostFar,
            ("active", 1) => Event::ActiveHome,
            ("active", _) => Event::ActiveFar,
            (_, 1) => Event::NotActiveHome,
            _ => Event::NotActiveFar,
        });
    }

    fn range_sent(&mut self, profile: &Profile) {
        let lists = lists_of_one(profile);
        self.count_if(lists.len() > 1, Event::SeveralLists);
        self.count_if(lists[0] != 1, Event::LowestNot1);
        self.count_if(lists[0] == 0, Event::Lowest0);
        self.count_if(lists[0] == 15, Event::Lowest15);
    }

    fn reason_sent(&mut self, profile: &Profile, word: &str) {
        let of_7_bits = [profile.reason_no_record, profile.reason_other_post];
        let failures = [profile.failure_no_record, profile.failure_other_post];
        let (reason, other, [at_0, at_7, not_other]) = match word {
            "no-record" => (
                failures[0],
                of_7_bits[0],
                [Event::NoRecord0, Event::NoRecord7, Event::NoRecordNotU],
            ),
            "other-post" => (
                failures[1],
                of_7_bits[1],
                [Event::OtherPost0, Event::OtherPost7, Event::OtherPostNotN],
            ),
            _ => return,
        };
        self.count_if(reason == 0, at_0);
        self.count_if(reason == 7, at_7);
        self.count_if(reason != other % 8, not_other);
        self.count_if(failures[0] == failures[1], Event::ReasonsEqual);
        self.count_if(!self.reasons_given, Event::ReasonsLeftOut);
        self.count_if(failures != [1, 2], Event::ReasonsGiven);
    }

    fn ack_from_post(&mut self, step: Step, ack: &InterrogateAck, bits: usize) {
        match step.answer {
            "refused 1" => self.count(Event::Ack1),
            "refused 2" => self.count(Event::Ack2),
            _ => {
                self.count(match ack.result {
                    Interrogation::Accepted { .. } => Event::Ack8Accepted,
                    Interrogation::NotAccepted { .. } => Event::Ack8NotAccepted,
                });
                let no_list = lists_of_one(&step.before.desk.profile).is_empty();
                self.count_if(ack.groups != Groups::default(), Event::Ack8Groups);
                self.count_if(step.output_was_short(), Event::Ack8Before14);
                self.count_if(step.records_were_unsound(), Event::Ack8Before15);
                self.count_if(no_list, Event::Ack8NoList);
                self.count_if(bits > 2048, Event::Ack8Long);
                self.count_if(bits == 3119, Event::Ack8Longest);
            }
        }
    }

    /// Told from the numbers of the line as it was written.
    pub(super) fn profile(&mut self, step: Step) {
        let words = step.written.split(|byte| *byte == b' ').skip(1);
        let numbers: Vec<u64> = words
            .filter_map(|word| std::str::from_utf8(word).ok()?.parse().ok())
            .collect();
        let posts = numbers[20];
        let pairs = (numbers.len() as u64 - 21) / 2;
        let given = posts >= 1 && pairs == posts + 1;
        let failures = match numbers[..] {
            [.., first, second] if given => [first, second],
            _ => [1, 2],
        };
        if step.answer.is_empty() {
            self.reasons_given = given;
            let eight = posts == MOST_POSTS as u64;
            self.count_if(!given, Event::LineWithout);
            self.count_if(given, Event::LineReasons);
            self.count_if(given && failures == [1, 2], Event::LineReasonsAs);
            self.count_if(failures.contains(&7), Event::LineReasonsLargest);
            self.count_if(given && eight, Event::LineEightPosts);
            return;
        }
        let good = failures.map(|reason| reason <= 7);
        self.count_if(good == [false, true], Event::First1);
        self.count_if(good == [true, false], Event::Second1);
        let wide = failures.map(|reason| reason > 7 && reason % 256 <= 7);
        self.count_if(wide.contains(&true), Event::Wide1);
        self.count_if(pairs == posts + 2, Event::TwoMore1);
        self.count_if(pairs + 1 == posts, Event::OneLess1);
        self.count_if(posts == 0 && pairs == 1, Event::NoPosts1);
    }
}

/// The range values that mean a list of one, in order.
fn lists_of_one(profile: &Profile) -> Vec<usize> {
    (0..16)
        .filter(|range| profile.meanings[*range] == Meaning::List(1))
        .collect()
}
