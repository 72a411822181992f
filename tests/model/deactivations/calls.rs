//! Calls that wait while a party's mark is cleared, and what is asked of released users, counted.

use super::events::Event;
use super::{Past, Watch};
use crate::desk::restricted;
use crate::records::{record_of, Identity};
use crate::replay::Replay;
use crate::step::Step;

impl Watch {
    /// The calls one of whose parties this DEACTIVATE released.
    pub(super) fn released_calls(&mut self, before: &Replay, post: u32, identities: &[Identity]) {
        let records = &before.records;
        let is_released = |party: Identity| {
            identities.contains(&party)
                && record_of(records, party).map_or(false, |number| {
                    records[number].post == post && records[number].active
                })
        };
        for place in 0..self.pasts.len() {
            let waiting = (before.desk.places[place], self.pasts[place].parties);
            let (call, (caller, called)) = match waiting {
                (Some(call), Some(parties)) => (call, parties),
                _ => continue,
            };
            let now = [is_released(caller), is_released(called)];
            self.count_if(now[0], Event::CallerReleased);
            self.count_if(now[1], Event::CalledReleased);
            let any = now.contains(&true);
            let past = &mut self.pasts[place];
            for (released, now) in past.released.iter_mut().zip(now) {
                *released |= now;
            }
            let past = *past;
            self.count_if(any && past.released == [true; 2], Event::BothReleased);
            self.count_if(now[1] && call.second.is_some(), Event::SecondReleased);
            self.count_if(any && past.moved, Event::ReleasedAfterMove);
        }
    }

    pub(super) fn set_up(
        &mut self,
        step: Step,
        caller: Identity,
        called: Identity,
        identifier: u32,
    ) {
        let before = step.before;
        let caller_released = self.kept.released.contains(&caller);
        let called_released = self.kept.released.contains(&called);
        if step.answer == "free" {
            let both = caller_released && called_released && caller != called;
            let waits = (0..self.pasts.len()).any(|place| {
                before.desk.places[place].is_some()
                    && self.pasts[place].parties == Some((caller, called))
            });
            self.count_if(caller_released || called_released, Event::FreeReleased);
            self.count_if(both, Event::FreeBothReleased);
            self.count_if(waits, Event::FreeWhileWaiting);
        }
        if !step.answer.starts_with("admitted") {
            return;
        }
        let again = |party: &Identity| {
            self.kept.again.contains(party) && restricted(&before.records, *party).is_some()
        };
        let by_mark_again = again(&caller) || again(&called);
        self.count_if(by_mark_again, Event::AdmittedAgain);
        self.count_if(caller_released, Event::CallerReleasedAdmitted);
        self.count_if(called_released, Event::CalledReleasedAdmitted);
        let (place, _) = step.admitted(identifier);
        self.pasts[place] = Past {
            parties: Some((caller, called)),
            ..Past::default()
        };
    }

    pub(super) fn interrogated(&mut self, user: Identity, answer: &str) {
        let released = self.kept.released.contains(&user);
        let again = self.kept.again.contains(&user);
        match answer.split(' ').nth(1) {
            Some("not-active") => self.count_if(released, Event::StateReleased),
            Some("other-post") => self.count_if(released, Event::StateOtherPost),
            Some("active") => self.count_if(again, Event::StateAgain),
            _ => {}
        }
    }

    pub(super) fn accepted(&mut self, step: Step, identifier: u32) {
        let (place, call) = match step.waiting(identifier) {
            Some(waiting) => waiting,
            None => return,
        };
        let past = self.pasts[place];
        if step.answer.starts_with("moved") {
            self.count_if(past.any_released(), Event::ReleasedMoved);
            // Only a call that went to another post counts as moved from here on.
            self.pasts[place].moved |= call.second != Some(call.post);
        } else if step.answer.starts_with("proceed") {
            self.count_if(past.any_released() && past.moved, Event::MovedAccepted);
            self.count_if(past.released == [true; 2], Event::BothAccepted);
            self.ended(step, identifier, Event::ReleasedAccepted);
        }
    }

    /// The call waits no more, unless this was refused.
    pub(super) fn ended(&mut self, step: Step, identifier: u32, event: Event) {
        if step.answer.starts_with("refused") {
            return;
        }
        if let Some((place, _)) = step.waiting(identifier) {
            self.count_if(self.pasts[place].any_released(), event);
            self.pasts[place] = Past::default();
        }
    }
}
