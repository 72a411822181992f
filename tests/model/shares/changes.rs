//! New shares that are taken, counted by how they differ from those in force and from what is held.

use super::events::Event;
use super::refused::{held_by_post, larger_ones, over_own_ceiling, reserved_numbers};
use super::Watch;
use crate::desk::Rows;
use crate::places::{shares_fit, Places};
use crate::profile::{Post, MOST_POSTS, PLACES};
use crate::step::Step;

impl Watch {
    pub(super) fn change(&mut self, step: Step, rows: &Rows) {
        let count = step.before.desk.profile.posts.len();
        let posts = rows[..count].to_vec();
        match step.answer {
            "taken" => {
                self.taken(step, &posts);
                self.past_rows(step, &rows[count..]);
                self.now_in_force(step, posts);
            }
            "refused 1" => self.refused_1(step, &posts),
            "refused 23" => {
                self.refused_23(step, &posts);
                self.kept.refused = Some((23, posts));
            }
            "refused 24" => {
                self.count_if(given_numbers(step) > 2 * count, Event::Past24);
                self.refused_24(step, &posts);
                self.kept.refused = Some((24, posts));
            }
            _ => {}
        }
    }

    fn taken(&mut self, step: Step, posts: &[Post]) {
        let desk = &step.before.desk;
        let in_force = &desk.profile.posts;
        let held = held_by_post(desk, &desk.places);
        let all_held: u32 = held.iter().sum();
        let reserved = reserved_numbers(posts);
        let larger = larger_ones(posts, &held);

        self.count(Event::Taken);
        self.count_if(all_held == 0, Event::TakenEmpty);
        self.count_if(all_held == PLACES, Event::TakenFull);
        self.count_if(posts.len() == 1, Event::TakenOfOne);
        self.count_if(posts.len() == MOST_POSTS, Event::TakenOfEight);
        self.count_if(larger == PLACES && reserved < PLACES, Event::Sum32);
        self.count_if(reserved == PLACES, Event::Reserved32);
        self.count_if(reserved + all_held > PLACES, Event::TogetherOver);
        self.count_if(step.output_was_short(), Event::TakenShort);
        self.count_if(step.records_were_unsound(), Event::TakenUnsound);
        for (number, post) in posts.iter().enumerate() {
            self.one_post(&in_force[number], post, held[number]);
        }

        let altered: Vec<usize> = (0..posts.len())
            .filter(|post| in_force[*post] != posts[*post])
            .collect();
        let several = posts.len() > 1;
        self.count_if(altered.is_empty(), Event::TakenSame);
        self.count_if(several && altered == [0], Event::FirstAlone);
        self.count_if(several && altered == [posts.len() - 1], Event::LastAlone);

        let at_second = held_at_second(&desk.places);
        self.count_if(!shares_fit(posts, &at_second), Event::TakenSeconds);
        let at_first = self.held_at_first(&desk.places);
        self.count_if(!shares_fit(posts, &at_first), Event::TakenMoved);
    }

    fn one_post(&mut self, old: &Post, new: &Post, held: u32) {
        let raised = new.reserved > old.reserved;
        let lowered = new.reserved < old.reserved;
        let lower_ceiling = new.ceiling < old.ceiling;
        self.count_if(raised && new.reserved > held, Event::RaisedAbove);
        self.count_if(raised && new.reserved < held, Event::RaisedBelow);
        self.count_if(lowered && new.reserved > held, Event::LoweredAbove);
        self.count_if(lowered && new.reserved < held, Event::LoweredBelow);
        self.count_if(new.ceiling > old.ceiling, Event::CeilingRaised);
        self.count_if(lower_ceiling, Event::CeilingLowered);
        self.count_if(lower_ceiling && new.ceiling == held, Event::CeilingAtHeld);
        self.count_if(new.ceiling == PLACES, Event::Ceiling32);
        let all_reserved = new.reserved == new.ceiling && new.ceiling > 0;
        self.count_if(all_reserved, Event::AllReserved);
    }

    fn past_rows(&mut self, step: Step, past: &[Post]) {
        if past.is_empty() {
            return;
        }
        let given = given_numbers(step);
        let posts = MOST_POSTS - past.len();
        let given_past = &past[..(given / 2).saturating_sub(posts)];
        let bad_ceiling = |post: &Post| post.ceiling == 0 || post.ceiling > PLACES;
        let reserved = reserved_numbers(&step.after.desk.profile.posts);
        self.count_if(given == 2 * posts, Event::PastLeftOut);
        self.count_if(given == 2 * MOST_POSTS, Event::PastGiven);
        self.count_if(given_past.iter().any(bad_ceiling), Event::PastCeiling);
        self.count_if(over_own_ceiling(given_past), Event::PastOver);
        let all = reserved + reserved_numbers(given_past);
        self.count_if(all > PLACES, Event::PastSum);
        let large = step.written.split(|byte| *byte == b' ');
        self.count_if(large.skip(1).any(over_255), Event::Past255);
    }

    /// Notes what the shares were, if this altered them, and which calls waited.
    fn now_in_force(&mut self, step: Step, posts: Vec<Post>) {
        let desk = &step.before.desk;
        for (place, call) in desk.places.iter().enumerate() {
            if let Some(call) = call {
                let moved = self.pasts[place].left.is_some();
                self.count_if(moved, Event::WithMoved);
                self.count_if(!moved && call.second.is_some(), Event::WithSecond);
                self.pasts[place].through = true;
            }
        }
        self.kept.refused = None;
        let in_force = &desk.profile.posts;
        if *in_force == posts {
            return;
        }
        self.count_if(self.kept.old == Some(posts), Event::TakenBack);
        self.kept.changes += 1;
        self.count_if(self.kept.changes > 1, Event::TakenSecond);
        self.kept.old = Some(in_force.clone());
        self.kept.opened.get_or_insert_with(|| in_force.clone());
        self.kept.before_profile = None;
        self.kept.profile_refused = false;
    }

    /// As if no call had moved.
    pub(super) fn held_at_first(&self, places: &Places) -> Places {
        let mut at_first = *places;
        for (call, past) in at_first.iter_mut().zip(&self.pasts) {
            if let Some(call) = call {
                call.post = past.left.unwrap_or(call.post);
            }
        }
        at_first
    }
}

/// As if each call waited at its second post already.
fn held_at_second(places: &Places) -> Places {
    let mut at_second = *places;
    for call in at_second.iter_mut().flatten() {
        call.post = call.second.unwrap_or(call.post);
    }
    at_second
}

/// How many numbers the line has.
pub(super) fn given_numbers(step: Step) -> usize {
    step.written.iter().filter(|byte| **byte == b' ').count()
}

/// A taken line has such a number only past the posts.
fn over_255(number: &[u8]) -> bool {
    let number = String::from_utf8_lossy(number).parse::<u32>();
    number.map_or(false, |number| number > 255)
}
