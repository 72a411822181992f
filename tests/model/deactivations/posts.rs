//! What posts send, counted: each refusal of the two messages, and what is carried out.

use super::events::Event;
use super::reading::not_read;
use super::Watch;
use crate::ack::{Ack, AckResult};
use crate::event::{header_of, pdu_type_of};
use crate::message::{read, Message};
use crate::records::{record_of, records_keep_rules, Identity, Record, MOST_RECORDS};
use crate::refusal::Refusal::{self, Number};
use crate::replay::{refused, Replay};
use crate::step::Step;

impl Watch {
    pub(super) fn message(&mut self, step: Step, post: u32, bytes: &[u8], bits: usize) {
        let profile = &step.before.desk.profile;
        let answer = step.answer;
        let carried_out = answer.starts_with("acks");
        match (read(profile, bytes, bits), answer) {
            (Ok(Message::Deactivate { users }), _) if carried_out => {
                self.deactivated(step.before, post, &users);
            }
            (Ok(Message::Activate { users, .. }), _) if carried_out => {
                self.activated(step.before, post, &users);
            }
            (Ok(Message::Deactivate { users }), _) => {
                let identities = crate::records::identities_of(profile, &users);
                self.refused(step, post, &identities);
            }
            (Ok(Message::DeactivateAck(ack)), "refused 8") => self.ack_from_post(step, &ack),
            (Ok(Message::DeactivateAck(_)), "refused 1") => self.count(Event::Damage1Ack),
            (Ok(Message::DeactivateAck(_)), "refused 2") => self.count(Event::Post2Before8),
            (Ok(Message::Interrogate { user }), _) => {
                let identity = crate::records::identity_of(profile, &user);
                self.interrogated(identity, answer);
            }
            (Ok(Message::Accept { identifier }), _) => self.accepted(step, identifier),
            (Ok(Message::Divert { identifier }), _) => {
                self.ended(step, identifier, Event::ReleasedDiverted);
            }
            (Ok(Message::Reject { identifier, .. }), _) => {
                self.ended(step, identifier, Event::ReleasedByMessage);
            }
            (Err(Number(5)), "refused 5") => match header_of(bytes, bits) {
                Some((_, 4)) => self.count(Event::Request5),
                Some((_, 5)) => self.count(Event::AckRead5),
                _ => {}
            },
            (Err(refusal), _) => {
                let pdu_type = pdu_type_of(profile, bytes, bits);
                if answer == refused(refusal) {
                    self.not_read(step, bytes, bits, pdu_type, refusal);
                } else if answer == "refused 2" {
                    self.count_if(pdu_type == Some(4), Event::Post2BeforeReading);
                }
            }
            _ => {}
        }
    }

    /// A DEACTIVATE that reads well and is refused all the same.
    fn refused(&mut self, step: Step, post: u32, identities: &[Identity]) {
        let short = step.output_was_short();
        let unsound = step.records_were_unsound();
        match step.answer {
            "refused 1" => {
                self.count(Event::Damage1);
                let not_there = post as usize >= step.before.desk.profile.posts.len();
                self.count_if(not_there, Event::Damage1Before2);
            }
            "refused 2" => {
                self.count(Event::Post2);
                self.count_if(short, Event::Post2Before14);
                self.count_if(unsound, Event::Post2Before15);
            }
            "refused 14" => {
                self.count_if(step.output_was_one_short(), Event::Output14);
                self.count_if(unsound, Event::Output14Before15);
            }
            "refused 15" => {
                self.unsound_by(step.before);
                let records = &step.before.records;
                let would_clear = identities.iter().any(|identity| {
                    record_of(records, *identity).map_or(false, |number| {
                        records[number].post == post && records[number].active
                    })
                });
                self.count_if(would_clear, Event::Records15Marked);
            }
            _ => {}
        }
    }

    /// Which ground of 15 it was, where it was just one.
    fn unsound_by(&mut self, before: &Replay) {
        let profile = &before.desk.profile;
        if before.records.len() > MOST_RECORDS {
            let mended = &before.records[..MOST_RECORDS];
            self.count_if(records_keep_rules(profile, mended), Event::Records15Many);
            return;
        }
        let mends: [(Event, fn(&mut Record)); 3] = [
            (Event::Records15Post, |record| record.post = 0),
            (Event::Records15Ssi, |record| record.ssi = 0),
            (Event::Records15Extension, |record| record.extension = 0),
        ];
        for (event, mend) in mends {
            let mut mended = before.records.clone();
            mended.iter_mut().for_each(mend);
            self.count_if(records_keep_rules(profile, &mended), event);
        }
    }

    fn ack_from_post(&mut self, step: Step, ack: &Ack) {
        self.count(match ack.result {
            AckResult::Accepted => Event::Ack8,
            AckResult::NotAccepted { .. } => Event::Ack8Reason,
        });
        self.count(match ack.mask {
            Some(_) => Event::Ack8Mask,
            None => Event::Ack8NoMask,
        });
        self.count_if(step.output_was_short(), Event::Ack8Before14);
        self.count_if(step.records_were_unsound(), Event::Ack8Before15);
    }

    fn not_read(
        &mut self,
        step: Step,
        bytes: &[u8],
        bits: usize,
        pdu_type: Option<u32>,
        refusal: Refusal,
    ) {
        match (pdu_type, refusal.number()) {
            (Some(6), 7) => self.count(Event::Type6),
            (Some(7), 7) => self.count(Event::Type7),
            // 3 may come before the header is looked at.
            (Some(pdu_type @ (4 | 5)), 4..=13) => {
                let profile = &step.before.desk.profile;
                if let Some(event) = not_read(profile, bytes, bits, pdu_type, refusal) {
                    self.count(event);
                }
                let request = pdu_type == 4;
                self.count_if(request && step.output_was_short(), Event::ReadingBefore14);
                self.count_if(
                    request && step.records_were_unsound(),
                    Event::ReadingBefore15,
                );
            }
            _ => {}
        }
    }
}
