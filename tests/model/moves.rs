//! How often each thing that can befall a call of two posts came in a script, run on the model.
//! It also says whether every one of them came at least once.

mod events;

use crate::counter::{count_script, Counter};
use crate::desk::{posts_asked, restricted, Desk};
use crate::message::{read, Message};
use crate::places::{admits, all_owed, free, held, owed, places_keep_rules, without, Call, Places};
use crate::records::Identity;
use crate::script::Line;
use crate::step::Step;
use events::{Event, EVENTS};
use std::collections::BTreeSet;
use std::io::{self, Write};

/// Prints the counts; false if something never came.
pub fn count_moves(script: &[u8], out: &mut dyn Write) -> io::Result<bool> {
    count_script(EVENTS, Watch::look, script, out)
}

/// What the desk doesn't keep of the call in a place, or of what was there before.
#[derive(Clone, Copy, Default)]
struct Past {
    /// The parties of the set-up that gave the call its second post.
    parties: Option<(Identity, Identity)>,
    /// The post that the call has moved away from.
    left: Option<u32>,
    got_18: bool,
    /// The place is free since a moved call ended.
    ended: bool,
    /// The place is free and was given a second post all the same.
    named: bool,
}

/// All that names a waiting call, with the post that asks, but for cancel; a reject may be plain
/// or a message.
enum Asking {
    Accept(u32),
    Divert(u32),
    Reject(u32),
    Cancel,
}

#[derive(Default)]
struct Kept {
    /// Identifiers of moved calls that have ended, each until it is used again.
    ended: BTreeSet<u32>,
}

type Watch = Counter<Event, Past, Kept>;

impl Watch {
    fn look(&mut self, line: Line, step: Step) {
        let before = &step.before.desk;
        match line {
            Line::Profile(_) if step.answer.is_empty() => self.kept.ended.clear(),
            Line::Place { place, .. } => self.used(place, Past::default()),
            Line::Unplace { place } if before.places[place].is_some() => {
                self.pasts[place] = Past::default();
            }
            Line::Second { place, .. } => self.named(before, place),
            Line::SetUp {
                caller,
                called,
                identifier,
                ..
            } => self.set_up(step, caller, called, identifier),
            Line::Reject { post, identifier } => {
                self.asked(step, Asking::Reject(post), identifier);
            }
            Line::Cancel { identifier } => self.asked(step, Asking::Cancel, identifier),
            Line::Post { post, bits, bytes } => match read(&before.profile, &bytes, bits) {
                Ok(Message::Accept { identifier }) => {
                    self.asked(step, Asking::Accept(post), identifier);
                }
                Ok(Message::Divert { identifier }) => {
                    self.asked(step, Asking::Divert(post), identifier);
                }
                Ok(Message::Reject { identifier, .. }) => {
                    self.asked(step, Asking::Reject(post), identifier);
                }
                _ => {}
            },
            _ => {}
        }
    }

    /// A call came into the place.
    fn used(&mut self, place: usize, past: Past) {
        self.count_if(self.pasts[place].named, Event::NamedWhileFree);
        self.pasts[place] = past;
    }

    /// A line `second`: the call's second post is no longer that of its set-up.
    fn named(&mut self, before: &Desk, place: usize) {
        let past = &mut self.pasts[place];
        if before.places[place].is_none() {
            past.named = true;
        } else {
            past.parties = None;
            past.got_18 = false;
        }
    }

    fn set_up(&mut self, step: Step, caller: Identity, called: Identity, identifier: u32) {
        if !step.answer.starts_with("admitted") {
            return;
        }
        let (place, call) = step.admitted(identifier);
        let has_second = call.second.is_some();
        let both_restricted = [caller, called]
            .iter()
            .all(|party| restricted(&step.after.records, *party).is_some());

        self.count_if(has_second, Event::TwoPosts);
        self.count_if(
            both_restricted && !has_second && caller != called,
            Event::OnePost,
        );
        self.count_if(self.pasts[place].ended, Event::PlaceAgain);
        let again = self.kept.ended.remove(&identifier);
        self.count_if(again, Event::IdentifierAgain);
        let past = Past {
            parties: if has_second {
                Some((caller, called))
            } else {
                None
            },
            ..Past::default()
        };
        self.used(place, past);
    }

    fn asked(&mut self, step: Step, asking: Asking, identifier: u32) {
        let answer = step.answer;
        if answer == "refused 1" {
            self.count_if(
                only_seconds_damage(&step.before.desk),
                Event::SecondNotThere,
            );
            return;
        }
        let (place, call) = match step.waiting(identifier) {
            Some(waiting) => waiting,
            None => return,
        };
        let past = self.pasts[place];
        match (asking, answer.split(' ').next(), call.second) {
            (Asking::Accept(_), Some("moved"), Some(second)) => {
                self.moved(step, place, call, second);
            }
            (_, Some("proceed" | "diverted" | "rejected" | "cancelled"), _) => {
                self.ended(place, call, answer);
            }
            (Asking::Accept(post), _, second) if answer == "refused 20" => {
                self.count_if(past.left == Some(post), Event::FirstTooLate);
                self.count_if(second == Some(post), Event::SecondTooEarly);
            }
            (Asking::Divert(post) | Asking::Reject(post), _, _) if answer == "refused 20" => {
                self.count_if(past.left == Some(post), Event::FirstTooLateToEnd);
            }
            (Asking::Accept(_), _, Some(second)) if answer == "refused 18" => {
                self.refused(&step.before.desk, place, second);
            }
            (Asking::Accept(post), _, Some(_)) if answer == "refused 14" => {
                self.count_if(post == call.post, Event::Refused14);
            }
            _ => {}
        }
    }

    fn moved(&mut self, step: Step, place: usize, call: Call, second: u32) {
        let before = &step.before.desk;
        let profile = &before.profile;
        let rest = without(&before.places, place);
        let share = &profile.posts[second as usize];
        let own = second == call.post;
        let held_there = held(&rest, second);
        let below_reserve = held_there < share.reserved;
        let no_other_free = free(profile, &before.places) == 0;
        let all_free_owed = free(profile, &before.places) == all_owed(profile, &before.places);
        let owed_to_first = |places: &Places| owed(profile, places, call.post);
        let past = self.pasts[place];

        self.count(Event::Move);
        self.count_if(
            !own && held_there + 1 == share.ceiling,
            Event::MoveBelowCeiling,
        );
        self.count_if(below_reserve && no_other_free, Event::MoveBelowReserveFull);
        self.count_if(
            !own && below_reserve && all_free_owed,
            Event::MoveBelowReserveOwed,
        );
        self.count_if(
            !admits(profile, &before.places, second),
            Event::MoveByOwnPlace,
        );
        self.count_if(no_other_free, Event::MoveFull);
        self.count_if(
            owed_to_first(&step.after.desk.places) > owed_to_first(&before.places),
            Event::MoveOwesFirst,
        );
        self.count_if(own, Event::OwnSecond);
        self.count_if(
            own && held_there + 1 == share.ceiling,
            Event::OwnSecondAtCeiling,
        );
        self.count_if(past.got_18, Event::RefusedThenMoved);
        self.count_if(past.left.is_some(), Event::MovedAgain);
        if let Some((caller, called)) = past.parties {
            match posts_asked(&step.after.records, caller, called) {
                Some((_, Some(now))) => self.count_if(now != second, Event::RecordsNameAnother),
                _ => self.count(Event::RecordsNameNone),
            }
        }
        // Only a call that went to another post counts as moved from here on.
        let left = if own { past.left } else { Some(call.post) };
        self.pasts[place] = Past {
            left,
            ..Past::default()
        };
    }

    /// The places rule said no at a move.
    fn refused(&mut self, before: &Desk, place: usize, second: u32) {
        let rest = without(&before.places, place);
        let at_ceiling = held(&rest, second) >= before.profile.posts[second as usize].ceiling;
        self.count_if(at_ceiling, Event::RefusedByCeiling);
        self.count_if(!at_ceiling, Event::RefusedByOwed);
        self.count_if(self.pasts[place].got_18, Event::RefusedTwice);
        self.pasts[place].got_18 = true;
    }

    fn ended(&mut self, place: usize, call: Call, answer: &str) {
        let past = self.pasts[place];
        let moved = past.left.is_some();
        if moved {
            self.count(match answer.split(' ').next() {
                Some("proceed") => Event::MovedAccepted,
                Some("diverted") => Event::MovedDiverted,
                Some("rejected") => Event::MovedRejected,
                _ => Event::MovedCancelled,
            });
            self.kept.ended.insert(call.identifier);
        }
        self.count_if(!moved && call.second.is_some(), Event::EndedBeforeMove);
        self.count_if(past.got_18, Event::RefusedThenEnded);
        self.pasts[place] = Past {
            ended: moved,
            ..Past::default()
        };
    }
}

/// Whether the desk would be sound if no call had a second post.
fn only_seconds_damage(desk: &Desk) -> bool {
    let mut places = desk.places;
    for call in places.iter_mut().flatten() {
        call.second = None;
    }
    desk.profile.keeps_rules() && places_keep_rules(&desk.profile, &places)
}
