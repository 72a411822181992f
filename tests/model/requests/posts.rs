//! What posts send about waiting calls, counted.

use super::events::Event;
use super::Watch;
use crate::event::pdu_type_of;
use crate::message::{read, Message};
use crate::replay::refused;
use crate::request::Options;
use crate::step::Step;

impl Watch {
    pub(super) fn message(&mut self, step: Step, post: u32, bytes: &[u8], bits: usize) {
        let profile = &step.before.desk.profile;
        let answer = step.answer;
        if answer == "refused 1" {
            self.damaged(step, Event::Damage1Message);
            return;
        }
        match read(profile, bytes, bits) {
            Ok(Message::Reject { identifier, cause }) => {
                self.reject_message(step, post, identifier, cause);
            }
            Ok(Message::Accept { identifier }) => {
                self.accept_or_divert(step, identifier);
            }
            Ok(Message::Divert { identifier }) => {
                self.accept_or_divert(step, identifier);
            }
            Ok(message) if answer == "refused 8" => self.not_sent_by_posts(step, &message),
            Err(refusal) if answer == refused(refusal) => {
                if let Some(pdu_type) = pdu_type_of(profile, bytes, bits) {
                    self.not_read(pdu_type, refusal.number());
                }
            }
            _ => {}
        }
    }

    fn reject_message(&mut self, step: Step, post: u32, identifier: u32, cause: u32) {
        match (step.answer, step.waiting(identifier)) {
            ("refused 2", _) => self.count(Event::Message2),
            ("refused 14", None) => self.count(Event::Message14Before19),
            ("refused 14", Some((_, call))) if call.post != post => {
                self.count(Event::Message14Before20);
            }
            ("refused 14", _) => self.count_if(step.output_was_one_short(), Event::Message14),
            ("refused 19", _) => self.count(Event::Message19),
            ("refused 20", Some((place, call))) => {
                self.count(Event::Message20);
                self.count_if(self.pasts[place].left == Some(post), Event::Message20Moved);
                self.count_if(call.second == Some(post), Event::Message20TooEarly);
            }
            (_, Some((place, call))) => {
                let moved = self.pasts[place].left.is_some();
                let other = cause != call.cause;
                self.count(Event::Message);
                self.count_if(other && cause == 0, Event::MessageWith0);
                self.count_if(other && cause != 0, Event::MessageWithOther);
                self.count_if(cause == 31, Event::MessageWith31);
                self.count_if(moved, Event::MessageMoved);
                self.count_if(!moved && call.second.is_some(), Event::MessageTwoPosts);
                self.count_if(step.records_were_unsound(), Event::MessageBadRecords);
                self.ended(place, call);
            }
            _ => {}
        }
    }

    fn accept_or_divert(&mut self, step: Step, identifier: u32) {
        let (place, call) = match step.waiting(identifier) {
            Some(waiting) => waiting,
            None => return,
        };
        let past = self.pasts[place];
        let with = call.cause != 0;
        match step.answer.split(' ').next() {
            Some("moved") => {
                self.count_if(!with, Event::MovedWith0);
                self.count_if(with, Event::MovedWith);
                self.count_if(with && past.given, Event::MovedGiven);
                self.count_if(with && past.left.is_some(), Event::MovedAgain);
                self.count_if(with && past.got_18, Event::MovedAfter18);
                // Only a call that went to another post counts as moved from here on.
                if call.second != Some(call.post) {
                    self.pasts[place].left = Some(call.post);
                }
                self.pasts[place].got_18 = false;
            }
            Some("proceed") => {
                self.count_if(with, Event::AcceptedWith);
                self.ended(place, call);
            }
            Some("diverted") => {
                self.count_if(with, Event::DivertedWith);
                self.ended(place, call);
            }
            _ if step.answer == "refused 18" => {
                self.count_if(with, Event::Refused18With);
                self.pasts[place].got_18 = true;
            }
            _ => {}
        }
    }

    fn not_sent_by_posts(&mut self, step: Step, message: &Message) {
        let event = match message {
            Message::Request { options, .. } if *options == Options::default() => Event::Request8,
            Message::Request { options, .. } if all_seven(options) => Event::Request8All,
            Message::Request { .. } => Event::Request8Options,
            Message::Cancel { .. } => Event::Cancel8,
            Message::Rejected {
                dispatcher: None, ..
            } => Event::Rejected8,
            Message::Rejected { .. } => Event::Rejected8Dispatcher,
            _ => return,
        };
        self.count(event);
        self.count_if(step.output_was_short(), Event::Refused8Before14);
    }

    fn not_read(&mut self, pdu_type: u32, refusal: u8) {
        self.count(match (pdu_type, refusal) {
            (11, 4) => Event::Request4,
            (14, 4) => Event::Cancel4,
            (17, 4) => Event::Reject4,
            (18, 4) => Event::Rejected4,
            (11, 10) => Event::Request10,
            (18, 10) => Event::Rejected10,
            (11, 12) => Event::Request12,
            (18, 12) => Event::Rejected12,
            (11, 13) => Event::Request13,
            (14, 13) => Event::Cancel13,
            (17, 13) => Event::Reject13,
            (18, 13) => Event::Rejected13,
            (_, 7) => Event::Refused7,
            _ => return,
        });
    }
}

fn all_seven(options: &Options) -> bool {
    options.calling.is_some()
        && options.called.is_some()
        && options.mni.is_some()
        && options.calling_area.is_some()
        && options.called_area.is_some()
        && options.calling_service.is_some()
        && options.called_service.is_some()
}
