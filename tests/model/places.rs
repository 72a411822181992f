//! The 32 places of waiting calls, and the shares that the posts have in them.

use crate::profile::{Post, Profile, PLACES};

/// A waiting call: the call identifier, the post at which it waits now, the post that has to
/// accept it after that one, if there is one, and the interception cause of its REQUEST.
#[derive(Clone, Copy, PartialEq, Eq, Debug)]
pub struct Call {
    pub identifier: u32,
    pub post: u32,
    pub second: Option<u32>,
    pub cause: u32,
}

/// What each place holds, if it isn't free.
pub type Places = [Option<Call>; PLACES as usize];

pub const ALL_FREE: Places = [None; PLACES as usize];

/// A post's number of waiting calls.
pub fn held(places: &Places, post: u32) -> u32 {
    places
        .iter()
        .flatten()
        .filter(|call| call.post == post)
        .count() as u32
}

/// A post's g less its held, or 0 if that is negative.
pub fn owed(profile: &Profile, places: &Places, post: u32) -> u32 {
    profile.posts[post as usize]
        .reserved
        .saturating_sub(held(places, post))
}

/// 32 less all held.
pub fn free(profile: &Profile, places: &Places) -> u32 {
    PLACES - all_held(profile, places)
}

/// The places rule for a call for a post.
pub fn admits(profile: &Profile, places: &Places, post: u32) -> bool {
    let share = &profile.posts[post as usize];
    let held = held(places, post);
    let owed_to_others: u32 = posts(profile)
        .filter(|other| *other != post)
        .map(|other| owed(profile, places, other))
        .sum();
    held < share.ceiling && (held < share.reserved || free(profile, places) > owed_to_others)
}

/// The desk's places with this one taken as free.
pub fn without(places: &Places, place: usize) -> Places {
    let mut rest = *places;
    rest[place] = None;
    rest
}

pub fn lowest_free(places: &Places) -> Option<usize> {
    places.iter().position(Option::is_none)
}

/// The place at which a call waits that has the identifier.
pub fn place_of(places: &Places, identifier: u32) -> Option<usize> {
    places
        .iter()
        .position(|place| place.map_or(false, |call| call.identifier == identifier))
}

/// What the waiting calls of a lent desk have to keep; false is refusal 1.
pub fn places_keep_rules(profile: &Profile, places: &Places) -> bool {
    places
        .iter()
        .flatten()
        .all(|call| call_keeps_rules(profile, call))
        && !two_with_one_identifier(places)
        && posts(profile).all(|post| held(places, post) <= profile.posts[post as usize].ceiling)
        && all_held(profile, places) + all_owed(profile, places) <= PLACES
}

/// Whether shares fit what is held: no post holds more than its ceiling, and what each post holds
/// or has reserved, whichever is more, comes to no more than the places.
pub fn shares_fit(posts: &[Post], places: &Places) -> bool {
    let mut larger_ones = 0;
    for (number, post) in posts.iter().enumerate() {
        let held = held(places, number as u32);
        if held > post.ceiling {
            return false;
        }
        larger_ones += held.max(post.reserved);
    }
    larger_ones <= PLACES
}

/// A second post that is the call's own is no fault.
fn call_keeps_rules(profile: &Profile, call: &Call) -> bool {
    call.identifier < 1 << 14
        && posts(profile).contains(&call.post)
        && call
            .second
            .map_or(true, |second| posts(profile).contains(&second))
        && call.cause < 1 << 5
}

fn two_with_one_identifier(places: &Places) -> bool {
    let calls: Vec<&Call> = places.iter().flatten().collect();
    for (place, call) in calls.iter().enumerate() {
        for later in &calls[place + 1..] {
            if call.identifier == later.identifier {
                return true;
            }
        }
    }
    false
}

fn posts(profile: &Profile) -> std::ops::Range<u32> {
    0..profile.posts.len() as u32
}

fn all_held(profile: &Profile, places: &Places) -> u32 {
    posts(profile).map(|post| held(places, post)).sum()
}

pub fn all_owed(profile: &Profile, places: &Places) -> u32 {
    posts(profile).map(|post| owed(profile, places, post)).sum()
}
