//! New shares that are refused, counted by their ground where it is one alone, and by what would
//! come after it.

use super::changes::given_numbers;
use super::events::Event;
use super::Watch;
use crate::desk::Desk;
use crate::places::{held, places_keep_rules, shares_fit, Places};
use crate::profile::{shares_keep_rules, Post, Profile, PLACES};
use crate::step::Step;

impl Watch {
    pub(super) fn refused_1(&mut self, step: Step, posts: &[Post]) {
        let desk = &step.before.desk;
        let profile = Profile {
            posts: posts.to_vec(),
            ..desk.profile.clone()
        };
        if !shares_keep_rules(posts) {
            self.count(Event::Damage1Before23);
        } else if !shares_fit(posts, &desk.places) {
            self.count(Event::Damage1Before24);
        } else {
            self.count(Event::Damage1Taken);
            let mended = places_keep_rules(&profile, &desk.places);
            self.count_if(mended, Event::Damage1Mended);
        }
    }

    pub(super) fn refused_23(&mut self, step: Step, posts: &[Post]) {
        let desk = &step.before.desk;
        let rows = given_numbers(step) / 2;
        if rows < posts.len() {
            let good = shares_keep_rules(&posts[..rows]);
            self.count_if(good, Event::RowLeftOut);
        } else {
            self.rule_broken(posts);
            self.low_bits(step, posts.len());
        }

        let bad: Vec<usize> = (0..posts.len())
            .filter(|post| !shares_keep_rules(&posts[*post..=*post]))
            .collect();
        let several = posts.len() > 1;
        self.count_if(several && bad == [0], Event::First23);
        self.count_if(several && bad == [posts.len() - 1], Event::Last23);

        let held = held_by_post(desk, &desk.places);
        let over = over_ceiling(posts, &held);
        let over_sum = larger_ones(posts, &held) > PLACES;
        self.count_if(!over.is_empty(), Event::Both23Ceiling);
        let by_held = over_sum && reserved_numbers(posts) <= PLACES;
        self.count_if(by_held, Event::Both23Sum);
        self.count_if(over.is_empty() && !over_sum, Event::Alone23);
    }

    /// Which rule it was, where it was just one.
    fn rule_broken(&mut self, posts: &[Post]) {
        let broken = [
            posts.iter().any(|post| post.ceiling == 0),
            posts.iter().any(|post| post.ceiling > PLACES),
            over_own_ceiling(posts),
            reserved_numbers(posts) > PLACES,
        ];
        match broken {
            [true, false, false, false] => self.count(Event::Ceiling0),
            [false, true, false, false] => {
                let highest = posts.iter().map(|post| post.ceiling).max();
                self.count(if highest == Some(PLACES + 1) {
                    Event::Ceiling33
                } else {
                    Event::CeilingFar
                });
            }
            [false, false, true, false] => {
                let by_one = posts.iter().all(|post| post.reserved <= post.ceiling + 1);
                self.count_if(by_one, Event::ReservedOver);
            }
            [false, false, false, true] => {
                self.count_if(reserved_numbers(posts) == PLACES + 1, Event::Reserved33);
            }
            _ => {}
        }
    }

    /// Numbers that would make good shares if they were cut to eight bits.
    fn low_bits(&mut self, step: Step, posts: usize) {
        let written = String::from_utf8_lossy(step.written);
        let numbers: Vec<u32> = written
            .split(' ')
            .skip(1)
            .filter_map(|number| number.parse().ok())
            .collect();
        let mut cut = Vec::new();
        let (mut reserved_over, mut ceiling_over) = (false, false);
        for pair in numbers.chunks(2).take(posts) {
            reserved_over |= pair[0] > 255;
            ceiling_over |= pair[1] > 255;
            cut.push(Post {
                reserved: pair[0] % 256,
                ceiling: pair[1] % 256,
            });
        }
        let good = shares_keep_rules(&cut);
        self.count_if(good && reserved_over, Event::ReservedLowBits);
        self.count_if(good && ceiling_over, Event::CeilingLowBits);
    }

    pub(super) fn refused_24(&mut self, step: Step, posts: &[Post]) {
        let desk = &step.before.desk;
        let held = held_by_post(desk, &desk.places);
        let over = over_ceiling(posts, &held);
        let larger = larger_ones(posts, &held);
        if larger <= PLACES {
            let by_one = over
                .iter()
                .all(|post| held[*post] == posts[*post].ceiling + 1);
            self.count(if by_one {
                Event::OneOver
            } else {
                Event::MoreOver
            });
            let several = posts.len() > 1;
            self.count_if(several && over == [0], Event::FirstOver);
            self.count_if(several && over == [posts.len() - 1], Event::LastOver);
        } else if over.is_empty() {
            let by_one = larger == PLACES + 1;
            self.count(if by_one {
                Event::Sum33
            } else {
                Event::SumOver33
            });
            let all_reserved = reserved_numbers(posts) == PLACES;
            self.count_if(by_one && all_reserved, Event::Sum33Reserved32);
        } else {
            self.count(Event::BothGrounds24);
        }
        let at_first = self.held_at_first(&desk.places);
        self.count_if(shares_fit(posts, &at_first), Event::Moved24);
    }
}

pub(super) fn held_by_post(desk: &Desk, places: &Places) -> Vec<u32> {
    (0..desk.profile.posts.len() as u32)
        .map(|post| held(places, post))
        .collect()
}

pub(super) fn reserved_numbers(posts: &[Post]) -> u32 {
    posts.iter().map(|post| post.reserved).sum()
}

/// The sum of the larger of reserved number and held.
pub(super) fn larger_ones(posts: &[Post], held: &[u32]) -> u32 {
    let both = posts.iter().zip(held);
    both.map(|(post, held)| post.reserved.max(*held)).sum()
}

/// The posts that hold more than their ceilings.
pub(super) fn over_ceiling(posts: &[Post], held: &[u32]) -> Vec<usize> {
    (0..posts.len())
        .filter(|post| held[*post] > posts[*post].ceiling)
        .collect()
}

pub(super) fn over_own_ceiling(posts: &[Post]) -> bool {
    posts.iter().any(|post| post.reserved > post.ceiling)
}
