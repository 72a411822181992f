//! What is judged by the shares in force after a change, counted where other shares would have
//! judged otherwise; and the calls that waited through it.

use super::events::Event;
use super::{Past, Watch};
use crate::desk::{posts_asked, Desk};
use crate::places::{admits, all_owed, free, held, owed, places_keep_rules, without, Places};
use crate::profile::{Post, Profile};
use crate::records::Identity;
use crate::step::Step;

impl Watch {
    pub(super) fn set_up(
        &mut self,
        step: Step,
        caller: Identity,
        called: Identity,
        identifier: u32,
    ) {
        let desk = &step.before.desk;
        let admitted = step.answer.starts_with("admitted");
        if !admitted && step.answer != "refused 18" {
            return;
        }
        let post = match posts_asked(&step.before.records, caller, called) {
            Some((post, _)) => post,
            None => return,
        };
        if admitted {
            self.pasts[step.admitted(identifier).0] = Past::default();
        }
        let otherwise = |shares: &Option<Vec<Post>>| match shares {
            Some(shares) => admits(&with(desk, shares), &desk.places, post) != admitted,
            None => false,
        };
        let kept = &self.kept;
        let by_old = otherwise(&kept.old);
        let by_opened = kept.changes > 1 && otherwise(&kept.opened);
        let by_earlier_desk = otherwise(&kept.before_profile);
        let after_refused_profile = kept.profile_refused && by_old;
        let after = match &kept.refused {
            Some((number, shares)) if otherwise(&Some(shares.clone())) => Some(*number),
            _ => None,
        };
        if let (true, Some(old)) = (by_old, kept.old.clone()) {
            self.otherwise_than_old(desk, &old, &desk.places, post);
        }
        self.up_to_ceiling(desk, post, admitted);
        self.count_if(by_opened && admitted, Event::AdmittedOpened);
        self.count_if(by_opened && !admitted, Event::RefusedOpened);
        self.count_if(after == Some(23), Event::After23);
        self.count_if(after == Some(24), Event::After24);
        self.count_if(by_earlier_desk, Event::AfterProfile);
        self.count_if(after_refused_profile, Event::ProfileRefused);
    }

    /// A set-up for the post that the old shares would have judged otherwise.
    fn otherwise_than_old(&mut self, desk: &Desk, old: &[Post], places: &Places, post: u32) {
        let number = post as usize;
        let held = held(places, post);
        let new = &desk.profile.posts[number];
        if admits(&desk.profile, places, post) {
            let by_ceiling = held >= old[number].ceiling;
            self.count_if(by_ceiling, Event::AdmittedCeiling);
            self.count_if(!by_ceiling, Event::AdmittedOwed);
            let by_reserve = by_reserve(&desk.profile, places, post);
            self.count_if(by_reserve, Event::AdmittedReserve);
        } else {
            let by_ceiling = held >= new.ceiling;
            self.count_if(by_ceiling, Event::RefusedCeiling);
            self.count_if(!by_ceiling, Event::RefusedOwed);
        }
    }

    fn up_to_ceiling(&mut self, desk: &Desk, post: u32, admitted: bool) {
        if let Some(old) = &self.kept.old {
            let ceiling = desk.profile.posts[post as usize].ceiling;
            let last = held(&desk.places, post) + 1 == ceiling;
            let other = old[post as usize].ceiling != ceiling;
            self.count_if(admitted && last && other, Event::AdmittedToCeiling);
        }
    }

    pub(super) fn accepted(&mut self, step: Step, identifier: u32) {
        let desk = &step.before.desk;
        let (place, call) = match step.waiting(identifier) {
            Some(waiting) => waiting,
            None => return,
        };
        let moved = step.answer.starts_with("moved");
        let second = match call.second {
            Some(second) if moved || step.answer == "refused 18" => second,
            _ => return self.ended(step, identifier),
        };
        let rest = without(&desk.places, place);
        if let Some(old) = self.kept.old.clone() {
            if admits(&with(desk, &old), &rest, second) != moved {
                let at_ceiling = held(&rest, second) >= desk.profile.posts[second as usize].ceiling;
                let by_reserve = by_reserve(&desk.profile, &rest, second);
                self.count_if(moved, Event::MovedNew);
                self.count_if(moved && by_reserve, Event::MovedReserve);
                self.count_if(!moved && at_ceiling, Event::MoveCeiling);
                self.count_if(!moved && !at_ceiling, Event::MoveOwed);
            }
        }
        if moved {
            self.count_if(self.pasts[place].through, Event::ThroughMoved);
            if second != call.post {
                self.pasts[place].left = Some(call.post);
            }
        }
    }

    /// The call waits no more, unless this was refused.
    pub(super) fn ended(&mut self, step: Step, identifier: u32) {
        let event = match step.answer.split(' ').next() {
            Some("proceed") => Event::ThroughAccepted,
            Some("diverted") => Event::ThroughDiverted,
            Some("rejected") => Event::ThroughRejected,
            Some("cancelled") => Event::ThroughCancelled,
            _ => return,
        };
        if let Some((place, _)) = step.waiting(identifier) {
            self.count_if(self.pasts[place].through, event);
            self.pasts[place] = Past::default();
        }
    }

    /// Whether the old shares would have made the lent desk the other of sound and unsound.
    pub(super) fn soundness(&mut self, desk: &Desk, answer: &str) {
        let old = match &self.kept.old {
            Some(old) => with(desk, old),
            None => return,
        };
        let sound_by_old = places_keep_rules(&old, &desk.places);
        if answer == "refused 1" {
            let over = over_a_ceiling(&desk.profile, &desk.places);
            self.count_if(sound_by_old && over, Event::NewUnsoundCeiling);
            self.count_if(sound_by_old && !over, Event::NewUnsoundSum);
        } else {
            let over = over_a_ceiling(&old, &desk.places);
            self.count_if(!sound_by_old && over, Event::OldUnsoundCeiling);
            self.count_if(!sound_by_old && !over, Event::OldUnsoundSum);
        }
    }
}

/// The desk's profile with other shares.
fn with(desk: &Desk, posts: &[Post]) -> Profile {
    Profile {
        posts: posts.to_vec(),
        ..desk.profile.clone()
    }
}

fn over_a_ceiling(profile: &Profile, places: &Places) -> bool {
    let mut posts = profile.posts.iter().enumerate();
    posts.any(|(number, post)| held(places, number as u32) > post.ceiling)
}

/// Whether all that is free is owed, to this post among others, so that no post but one below its
/// reserved number gets a place.
fn by_reserve(profile: &Profile, places: &Places, post: u32) -> bool {
    owed(profile, places, post) > 0 && free(profile, places) == all_owed(profile, places)
}
