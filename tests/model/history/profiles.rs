//! Profiles for the histories, with shares that fill up, and lines of profiles that break a rule.

use crate::dice::Dice;
use crate::draw;
use crate::layout::profile_bytes;
use crate::profile::{sample, Meaning, Post, Profile, MOST_POSTS, PLACES};

const LARGEST_24_BITS: u32 = (1 << 24) - 1;

pub fn draw(dice: &mut Dice) -> Profile {
    if dice.one_in(4) {
        return sample();
    }
    loop {
        let mut profile = draw::profile(dice);
        profile.posts = shares(dice);
        if dice.one_in(2) {
            profile.home_extension = dice.pick(&[0, 1, 77]);
        }
        if dice.one_in(2) {
            // Short lists, so that one outcome or two are as likely as three.
            profile.meanings[1] = Meaning::List(1);
            profile.meanings[2] = Meaning::List(2);
        }
        lists_of_one(dice, &mut profile);
        failures(dice, &mut profile);
        if !draw::user_ranges(&profile).is_empty() {
            return profile;
        }
    }
}

/// Several values that mean a list of one, the lowest of them anywhere; or none at all, or just the
/// lowest or the highest value.
fn lists_of_one(dice: &mut Dice, profile: &mut Profile) {
    match dice.below(8) {
        chosen @ 0..=2 => {
            for meaning in profile.meanings.iter_mut() {
                if *meaning == Meaning::List(1) {
                    *meaning = Meaning::List(2);
                }
            }
            if chosen > 0 {
                profile.meanings[dice.pick(&[0, 15, 15])] = Meaning::List(1);
            }
        }
        3..=5 => {
            for _ in 0..2 + dice.below(3) {
                profile.meanings[dice.below(16)] = Meaning::List(1);
            }
            if dice.one_in(2) {
                profile.meanings[1] = Meaning::List(15);
            }
        }
        _ => {}
    }
}

/// Often what they are where a line leaves them out, or one of the two largest.
fn failures(dice: &mut Dice, profile: &mut Profile) {
    match dice.below(8) {
        0 | 1 => (profile.failure_no_record, profile.failure_other_post) = (1, 2),
        2..=5 => {
            profile.failure_no_record = dice.pick(&[0, 7]);
            profile.failure_other_post = dice.pick(&[0, 7]);
        }
        _ => {}
    }
}

fn shares(dice: &mut Dice) -> Vec<Post> {
    let count = 1 + dice.below(MOST_POSTS);
    match dice.below(5) {
        0 => all_reserved(dice, count),
        1 => small(dice, MOST_POSTS),
        2 => small(dice, count),
        3 => vec![
            Post {
                reserved: 0,
                ceiling: PLACES,
            };
            count
        ],
        _ => draw::posts(dice),
    }
}

/// Every place is reserved for some post.
fn all_reserved(dice: &mut Dice, count: usize) -> Vec<Post> {
    let mut reserved = vec![0; count];
    for _ in 0..PLACES {
        reserved[dice.below(count)] += 1;
    }
    reserved
        .into_iter()
        .map(|reserved: u32| Post {
            reserved,
            ceiling: (reserved + dice.below(4) as u32).clamp(1, PLACES),
        })
        .collect()
}

/// Ceilings that a few calls reach.
fn small(dice: &mut Dice, count: usize) -> Vec<Post> {
    (0..count)
        .map(|_| {
            let ceiling = 1 + dice.below(6) as u32;
            Post {
                reserved: dice.below(1 + ceiling.min(4) as usize) as u32,
                ceiling,
            }
        })
        .collect()
}

/// Without the failure reasons where they may be left out.
pub fn line(profile: &Profile) -> Vec<u8> {
    match failures_of(profile) {
        [1, 2] => line_of(&numbers(profile)),
        given => line_of(&[&numbers(profile)[..], &given].concat()),
    }
}

/// The same, with or without them where they may be left out.
pub fn line_or_longer(dice: &mut Dice, profile: &Profile) -> Vec<u8> {
    match dice.one_in(2) {
        true => line(profile),
        false => line_of(&[&numbers(profile)[..], &failures_of(profile)].concat()),
    }
}

/// POSTS one or two less or more than the pairs are, so that a share is read as failure reasons or
/// failure reasons as a share; most such lines are refused.
pub fn line_by_pairs(dice: &mut Dice, profile: &Profile) -> Vec<u8> {
    let mut numbers = numbers(profile);
    if dice.one_in(2) {
        numbers.extend(failures_of(profile));
    }
    let posts = numbers[20];
    numbers[20] = match dice.below(5) {
        0 => posts + 1,
        1 => posts + 2,
        2 => posts.saturating_sub(2),
        _ => posts - 1,
    };
    if dice.one_in(2) {
        // A share that may be read as failure reasons.
        let last = numbers.len() - 2;
        numbers[last] = dice.number(3);
        numbers[last + 1] = 7;
    }
    line_of(&numbers)
}

fn failures_of(profile: &Profile) -> [u32; 2] {
    [profile.failure_no_record, profile.failure_other_post]
}

/// One number of a good profile set so that a rule is broken, mostly by one.
pub fn bad_line(dice: &mut Dice, profile: &Profile) -> Vec<u8> {
    let mut numbers = numbers(profile);
    let post = 21 + 2 * dice.below(profile.posts.len());
    let far = dice.one_in(4);
    let over = |most: u32| if far { u32::MAX } else { most + 1 };
    match dice.below(15) {
        0 => numbers[0] = over(63),
        1 => numbers[1] = over(LARGEST_24_BITS),
        2 => numbers[2] = over(127),
        3 => numbers[3] = over(127),
        4 => numbers[4 + dice.below(16)] = over(17),
        5 => numbers[20] = 0,
        6 => numbers[20] = over(8),
        7 => numbers[20] += 1,
        8 => numbers[post + 1] = 0,
        9 => numbers[post + 1] = over(PLACES),
        10..=13 => {
            // Mostly one of the two is good; some are good in their lowest 3 or 8 bits.
            let mut failures = failures_of(profile);
            let wrong = dice.pick(&[8, 8, 9, 15, 255, 256, 257, 65_536, u32::MAX]);
            failures[dice.below(2)] = wrong;
            if dice.one_in(6) {
                failures[dice.below(2)] = wrong;
            }
            numbers.extend(failures);
        }
        _ => numbers[post] = over(numbers[post + 1]),
    }
    line_of(&numbers)
}

/// The numbers of a profile in the order of the script's line, up to its posts.
fn numbers(profile: &Profile) -> Vec<u32> {
    let mut numbers = vec![
        profile.ss_type,
        profile.home_extension,
        profile.reason_no_record,
        profile.reason_other_post,
    ];
    numbers.extend(
        profile_bytes(profile)[6..22]
            .iter()
            .map(|code| u32::from(*code)),
    );
    numbers.push(profile.posts.len() as u32);
    for post in &profile.posts {
        numbers.push(post.reserved);
        numbers.push(post.ceiling);
    }
    numbers
}

fn line_of(numbers: &[u32]) -> Vec<u8> {
    let mut line = "profile".to_string();
    for number in numbers {
        line.push_str(&format!(" {number}"));
    }
    line.into_bytes()
}
