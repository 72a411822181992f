//! How often each thing came in a script, run on the model, that request (iv) brings: REQUEST and
//! its cause, REJECT, REJECTED and CANCEL. It also says whether every one of them came at least
//! once.

mod events;
mod posts;

use crate::counter::{count_script, Counter};
use crate::desk::Desk;
use crate::places::{places_keep_rules, Call};
use crate::records::Identity;
use crate::script::Line;
use crate::step::Step;
use events::{Event, EVENTS};
use std::io::{self, Write};

/// Prints the counts; false if something never came.
pub fn count_requests(script: &[u8], out: &mut dyn Write) -> io::Result<bool> {
    count_script(EVENTS, Watch::look, script, out)
}

/// What the desk doesn't keep of the call in a place, or of what was there before.
#[derive(Clone, Copy, Default)]
struct Past {
    /// The post that the call has moved away from.
    left: Option<u32>,
    got_18: bool,
    /// A line `cause` gave the call its cause.
    given: bool,
    /// The place is free, and this was the cause of the call that ended there.
    last_cause: Option<u32>,
    /// The place is free and was given a cause all the same.
    named: bool,
}

type Watch = Counter<Event, Past, ()>;

impl Watch {
    fn look(&mut self, line: Line, step: Step) {
        let before = &step.before.desk;
        match line {
            Line::Place { place, .. } => {
                let there = before.places[place];
                let had_cause = there.map_or(false, |call| call.cause != 0);
                self.count_if(had_cause, Event::PutAnew);
                self.used(place);
            }
            Line::Unplace { place } if before.places[place].is_some() => {
                self.pasts[place] = Past::default();
            }
            Line::Cause { place, cause } => self.given(before, place, cause),
            Line::Dump => self.dumped(before),
            Line::SetUp {
                caller,
                called,
                identifier,
                cause,
            } => {
                let parties_fit = [caller, called].iter().all(party_fits);
                self.set_up(step, parties_fit, identifier, cause);
            }
            Line::Reject { post, identifier } => self.plain_reject(step, post, identifier),
            Line::Cancel { identifier } => self.cancel(step, identifier),
            Line::Post { post, bits, bytes } => self.message(step, post, &bytes, bits),
            _ => {}
        }
    }

    /// A call came into the place.
    fn used(&mut self, place: usize) {
        self.count_if(self.pasts[place].named, Event::NamedWhileFree);
        self.pasts[place] = Past::default();
    }

    fn given(&mut self, before: &Desk, place: usize, cause: u32) {
        match before.places[place] {
            None => {
                self.count(Event::CauseOfFree);
                self.pasts[place].named = true;
            }
            Some(call) => {
                self.count_if(cause < 32, Event::CauseOfCall);
                self.count_if(cause >= 32, Event::CauseTooWide);
                self.count_if(cause < 32 && call.cause >= 32, Event::CauseMended);
                self.pasts[place].given = true;
            }
        }
    }

    fn dumped(&mut self, desk: &Desk) {
        for call in desk.places.iter().flatten() {
            self.count_if(call.cause != 0, Event::DumpedCause);
            self.count_if(
                call.cause != 0 && call.second.is_some(),
                Event::DumpedSecondAndCause,
            );
            self.count_if(call.cause >= 32, Event::DumpedTooWide);
        }
    }

    fn set_up(&mut self, step: Step, parties_fit: bool, identifier: u32, cause: u32) {
        let cause_alone = parties_fit && identifier < 1 << 14 && cause >= 32;
        match step.answer {
            "refused 1" => self.damaged(step, Event::Damage1SetUp),
            "refused 16" if cause_alone => {
                self.count(Event::SetUp16);
                self.count_if(cause % 256 < 32, Event::SetUp16LowBitsGood);
                self.count_if(step.output_was_short(), Event::SetUp16Before14);
            }
            "refused 14" => {
                self.count_if(cause != 0 && step.output_was_one_short(), Event::SetUp14);
            }
            "free" => self.count_if(cause != 0, Event::FreeWith),
            answer if answer.starts_with("admitted") => self.admitted(step, identifier, cause),
            _ => {}
        }
    }

    fn admitted(&mut self, step: Step, identifier: u32, cause: u32) {
        let (place, call) = step.admitted(identifier);
        let has_second = call.second.is_some();
        let with_cause = step.written.split(|byte| *byte == b' ').count() == 7;
        let last_cause = self.pasts[place].last_cause;
        self.count_if(!with_cause, Event::AdmittedWithout);
        self.count_if(with_cause && cause == 0, Event::AdmittedWith0);
        self.count_if(cause != 0, Event::AdmittedWith);
        self.count_if(cause == 31, Event::AdmittedWith31);
        self.count_if(cause != 0 && has_second, Event::AdmittedTwoPosts);
        self.count_if(cause != 0 && identifier == 16_383, Event::AdmittedLargest);
        self.count_if(
            last_cause.map_or(false, |last| last != cause),
            Event::PlaceAgain,
        );
        self.used(place);
    }

    fn plain_reject(&mut self, step: Step, post: u32, identifier: u32) {
        let too_wide = identifier >= 1 << 14;
        let short = step.output_was_short();
        match (step.answer, step.waiting(identifier)) {
            ("refused 1", _) => self.damaged(step, Event::Damage1Reject),
            ("refused 2", _) => self.count_if(too_wide && short, Event::Plain2Before16),
            ("refused 16", _) => self.count_if(short, Event::Plain16Before14),
            ("refused 14", None) => self.count(Event::Plain14Before19),
            ("refused 14", Some((_, call))) if call.post != post => {
                self.count(Event::Plain14Before20);
            }
            ("refused 14", _) => self.count_if(step.output_was_one_short(), Event::Plain14),
            ("refused 19", _) => self.count(Event::Plain19),
            ("refused 20", _) => self.count(Event::Plain20),
            (_, Some((place, call))) => {
                self.count(Event::Plain);
                self.count_if(call.cause != 0, Event::PlainWith);
                self.count_if(self.pasts[place].left.is_some(), Event::PlainMoved);
                self.ended(place, call);
            }
            _ => {}
        }
    }

    fn cancel(&mut self, step: Step, identifier: u32) {
        match (step.answer, step.waiting(identifier)) {
            ("refused 1", _) => self.damaged(step, Event::Damage1Cancel),
            ("refused 16", _) => self.count_if(step.output_was_short(), Event::Cancel16Before14),
            ("refused 14", None) => self.count(Event::Cancel14Before19),
            ("refused 14", _) => self.count_if(step.output_was_one_short(), Event::Cancel14),
            ("refused 19", _) => self.count(Event::Cancel19),
            (_, Some((place, call))) => {
                let moved = self.pasts[place].left.is_some();
                self.count_if(!moved && call.second.is_none(), Event::Cancelled);
                self.count_if(call.cause != 0, Event::CancelledWith);
                self.count_if(moved, Event::CancelledMoved);
                self.count_if(!moved && call.second.is_some(), Event::CancelledTwoPosts);
                self.ended(place, call);
            }
            _ => {}
        }
    }

    /// A call got 1.
    fn damaged(&mut self, step: Step, event: Event) {
        self.count_if(only_causes_damage(&step.before.desk), event);
    }

    fn ended(&mut self, place: usize, call: Call) {
        self.pasts[place] = Past {
            last_cause: Some(call.cause),
            ..Past::default()
        };
    }
}

fn party_fits(party: &Identity) -> bool {
    party.ssi < 1 << 24 && party.extension < 1 << 24
}

/// Whether the desk isn't sound and would be if every call had a cause of 0.
fn only_causes_damage(desk: &Desk) -> bool {
    let Desk { profile, places } = desk;
    let mut mended = *places;
    for call in mended.iter_mut().flatten() {
        call.cause = 0;
    }
    !places_keep_rules(profile, places) && places_keep_rules(profile, &mended)
}
