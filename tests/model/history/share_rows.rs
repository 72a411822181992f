//! New shares drawn by what is to come of them on a desk as it stands: taken, 23 or 24, each
//! mostly at its edge.

use crate::desk::Desk;
use crate::dice::Dice;
use crate::places::held;
use crate::profile::{Post, MOST_POSTS, PLACES};

/// What new shares are to be, if the desk can have such.
#[derive(Clone, Copy)]
pub enum Aim {
    /// The larger ones of reserved number and held come to at most 32.
    Fit,
    /// They come to just 32.
    FitJust,
    /// Some ceiling is just what its post holds.
    CeilingAtHeld,
    /// As those in force, but for one post.
    OnePost,
    /// The larger ones come to over 32, the reserved numbers alone don't.
    OverSum,
    /// A post holds more than its ceiling.
    OverCeiling,
    OverBoth,
    BreakRule,
    /// The row of a post is left out.
    RowLeftOut,
}

pub const TAKEN: [Aim; 6] = [
    Aim::Fit,
    Aim::FitJust,
    Aim::FitJust,
    Aim::CeilingAtHeld,
    Aim::CeilingAtHeld,
    Aim::OnePost,
];
pub const REFUSED_24: [Aim; 5] = [
    Aim::OverSum,
    Aim::OverSum,
    Aim::OverCeiling,
    Aim::OverCeiling,
    Aim::OverBoth,
];
pub const REFUSED_23: [Aim; 5] = [
    Aim::BreakRule,
    Aim::BreakRule,
    Aim::BreakRule,
    Aim::BreakRule,
    Aim::RowLeftOut,
];

/// A line of such shares; rows past the posts may be anything, and may be left out.
pub fn line(dice: &mut Dice, aim: Aim, desk: &Desk) -> Vec<u8> {
    let posts = posts(dice, aim, desk);
    match aim {
        Aim::RowLeftOut if posts.len() > 1 => {
            let kept = 1 + dice.below(posts.len() - 1);
            line_of(&posts[..kept])
        }
        _ => line_with_rest(dice, &posts),
    }
}

/// The line of shares that are given, with rows past the posts or without.
pub fn line_with_rest(dice: &mut Dice, posts: &[Post]) -> Vec<u8> {
    let mut rows = posts.to_vec();
    let past = match dice.below(3) {
        0 => 0,
        1 => MOST_POSTS - rows.len(),
        _ => dice.below(MOST_POSTS - rows.len() + 1),
    };
    for _ in 0..past {
        let (reserved, ceiling) = dice.pick(&NONSENSE);
        rows.push(Post { reserved, ceiling });
    }
    line_of(&rows)
}

/// Rows that break a rule, or would bring the reserved numbers over 32.
const NONSENSE: [(u32, u32); 10] = [
    (0, 0),
    (1, 0),
    (9, 3),
    (0, 33),
    (33, 33),
    (32, 32),
    (255, 0),
    (256, 1),
    (0, 4_294_967_295),
    (4_294_967_295, 4_294_967_295),
];

fn line_of(rows: &[Post]) -> Vec<u8> {
    let mut line = "shares".to_string();
    for Post { reserved, ceiling } in rows {
        line.push_str(&format!(" {reserved} {ceiling}"));
    }
    line.into_bytes()
}

fn posts(dice: &mut Dice, aim: Aim, desk: &Desk) -> Vec<Post> {
    let count = desk.profile.posts.len() as u32;
    let held: Vec<u32> = (0..count).map(|post| held(&desk.places, post)).collect();
    let free = PLACES - held.iter().sum::<u32>();
    let some = dice.below(free as usize + 1) as u32;
    match aim {
        Aim::Fit | Aim::RowLeftOut => fitting(dice, &held, some),
        Aim::FitJust => fitting(dice, &held, free),
        Aim::CeilingAtHeld => {
            let more = dice.pick(&[0, some]);
            let mut posts = fitting(dice, &held, more);
            ceilings_at_held(dice, &held, &mut posts);
            posts
        }
        Aim::OnePost => {
            let mut posts = desk.profile.posts.clone();
            let chosen = first_or_last(dice, posts.len());
            posts[chosen] = fitting(dice, &held, some)[chosen];
            posts
        }
        Aim::OverSum => over_sum(dice, &held, free),
        Aim::OverCeiling => {
            let mut posts = fitting(dice, &held, some);
            over_ceiling(dice, &held, &mut posts);
            posts
        }
        Aim::OverBoth => {
            let mut posts = over_sum(dice, &held, free);
            over_ceiling(dice, &held, &mut posts);
            posts
        }
        Aim::BreakRule => {
            let good = dice.pick(&[Aim::Fit, Aim::FitJust, Aim::OverSum, Aim::OverCeiling]);
            let mut posts = self::posts(dice, good, desk);
            break_rule(dice, &mut posts);
            posts
        }
    }
}

/// Shares whose larger ones come to so many more than what is held. The posts that get none of
/// these have a reserved number of what they hold, or less.
pub fn fitting(dice: &mut Dice, held: &[u32], more: u32) -> Vec<Post> {
    let every: Vec<usize> = (0..held.len()).collect();
    let getting = if dice.one_in(3) {
        every
    } else {
        vec![dice.pick(&every), dice.pick(&every)]
    };
    with_more(dice, held, more, &getting)
}

fn with_more(dice: &mut Dice, held: &[u32], more: u32, getting: &[usize]) -> Vec<Post> {
    let mut reserved = vec![None; held.len()];
    for _ in 0..more {
        let post = dice.pick(getting);
        reserved[post] = Some(1 + reserved[post].unwrap_or(held[post]));
    }
    let mut posts = Vec::new();
    for (held, reserved) in held.iter().zip(reserved) {
        let reserved = reserved.unwrap_or_else(|| match dice.below(4) {
            0 => 0,
            1 => *held,
            _ => dice.below(*held as usize + 1) as u32,
        });
        let least = reserved.max(*held).max(1);
        let ceiling = match dice.below(4) {
            0 => least,
            1 => (least + 1).min(PLACES),
            2 => PLACES,
            _ => least + dice.below(PLACES.saturating_sub(least) as usize + 1) as u32,
        };
        posts.push(Post { reserved, ceiling });
    }
    posts
}

/// Some post has less reserved than it holds, by as much as the others have too much.
fn over_sum(dice: &mut Dice, held: &[u32], free: u32) -> Vec<Post> {
    let over = dice.pick(&[1, 1, 1, 2, 5]);
    let sparing: Vec<usize> = (0..held.len()).filter(|post| held[*post] >= over).collect();
    if held.len() == 1 || sparing.is_empty() {
        return fitting(dice, held, free);
    }
    let spared = dice.pick(&sparing);
    let getting: Vec<usize> = (0..held.len()).filter(|post| *post != spared).collect();
    let getting = if dice.one_in(2) {
        getting
    } else {
        vec![dice.pick(&getting)]
    };
    let mut posts = with_more(dice, held, free + over, &getting);
    let most = held[spared] - over;
    posts[spared].reserved = match dice.below(2) {
        0 => most,
        _ => dice.below(most as usize + 1) as u32,
    };
    posts
}

/// Of one post that holds calls, or of all.
fn ceilings_at_held(dice: &mut Dice, held: &[u32], posts: &mut [Post]) {
    let holding: Vec<usize> = (0..held.len()).filter(|post| held[*post] > 0).collect();
    if holding.is_empty() {
        return;
    }
    let chosen = if dice.one_in(2) {
        holding
    } else {
        vec![dice.pick(&holding)]
    };
    for post in chosen {
        posts[post].ceiling = held[post];
        posts[post].reserved = posts[post].reserved.min(held[post]);
    }
}

/// One post holds more than its ceiling, mostly by one; it has to hold two calls at least.
fn over_ceiling(dice: &mut Dice, held: &[u32], posts: &mut [Post]) {
    let holding: Vec<usize> = (0..held.len()).filter(|post| held[*post] > 1).collect();
    if holding.is_empty() {
        return;
    }
    let post = holding[first_or_last(dice, holding.len())];
    let most = held[post] - 1;
    let ceiling = match dice.below(3) {
        0 => 1 + dice.below(most as usize) as u32,
        _ => most,
    };
    posts[post] = Post {
        reserved: dice.below(posts[post].reserved.min(ceiling) as usize + 1) as u32,
        ceiling,
    };
}

/// Often the first of so many or the last, so that neither is passed over.
fn first_or_last(dice: &mut Dice, count: usize) -> usize {
    match dice.below(3) {
        0 => 0,
        1 => count - 1,
        _ => dice.below(count),
    }
}

/// One rule of the profile is broken, mostly by one, or by a number that is good in its lowest
/// eight bits.
fn break_rule(dice: &mut Dice, posts: &mut [Post]) {
    let chosen = first_or_last(dice, posts.len());
    let post = &mut posts[chosen];
    match dice.below(8) {
        0 => *post = Post::default(),
        1 => post.ceiling = PLACES + 1,
        2 => post.ceiling = dice.pick(&[34, 255, u32::MAX]),
        3 => post.ceiling += 256,
        4 => post.reserved += 256,
        5 => over_own_ceiling(dice, chosen, posts),
        _ => reserve_one_too_many(dice, posts),
    }
}

/// The others have nothing reserved where the sum would be too large as well.
fn over_own_ceiling(dice: &mut Dice, chosen: usize, posts: &mut [Post]) {
    let ceiling = posts[chosen].ceiling.min(1 + dice.below(20) as u32);
    posts[chosen] = Post {
        reserved: ceiling + 1,
        ceiling,
    };
    if posts.iter().map(|post| post.reserved).sum::<u32>() > PLACES {
        for (number, post) in posts.iter_mut().enumerate() {
            if number != chosen {
                post.reserved = 0;
            }
        }
    }
}

/// The reserved numbers come to 33, each within its ceiling where there are several posts.
fn reserve_one_too_many(dice: &mut Dice, posts: &mut [Post]) {
    let alone = posts.len() == 1;
    let reserved = |posts: &[Post]| posts.iter().map(|post| post.reserved).sum::<u32>();
    while reserved(posts) <= PLACES {
        let chosen = dice.below(posts.len());
        let post = &mut posts[chosen];
        if post.reserved < PLACES || alone {
            post.reserved += 1;
            post.ceiling = post.ceiling.max(post.reserved);
        }
    }
}
