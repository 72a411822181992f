//! New shares on a running desk: worked cases at the edges of 23 and 24, set-ups and moves before
//! and after, and laws over long histories.

use super::desk::{check_script, put};
use super::share_cases::{CHANGES, MOVES, SET_UPS};
use super::share_laws::histories;
use super::Report;
use crate::desk::{Answer, Desk, Rows};
use crate::layout::profile_bytes;
use crate::places::{Call, Places, ALL_FREE};
use crate::profile::{sample, Post, Profile};
use crate::refusal::Refusal::Number;
use std::io;

/// A marked user at each post.
const MARKED: &str = "record 0 1 10 0 0 1\nrecord 1 1 11 0 1 1\n";

pub fn check(report: &mut Report) -> io::Result<()> {
    for (what, script, answers) in super::share_scripts::SCRIPTS {
        check_script(report, what, script, answers)?;
    }
    changes(report)?;
    set_ups(report)?;
    moves(report)?;
    nothing_else(report)?;
    histories(report)
}

fn columns(row: &str) -> Vec<&str> {
    row.split(" | ").collect()
}

/// Lines that put the calls of both posts into the first places, and how many they are.
fn put_both(held: &str) -> (String, usize) {
    let (at_0, at_1) = two_numbers(held);
    (put(0, at_0, 0) + &put(at_0, at_1, 1), at_0 + at_1)
}

fn two_numbers(words: &str) -> (usize, usize) {
    let numbers: Vec<usize> = words
        .split(' ')
        .filter_map(|word| word.parse().ok())
        .collect();
    (numbers[0], numbers[1])
}

fn changes(report: &mut Report) -> io::Result<()> {
    for row in CHANGES.lines() {
        let columns = columns(row);
        let (put, held) = put_both(columns[0]);
        let script = format!("{put}shares {}\n", columns[1]);
        let answers = format!("{} {}\n", held + 1, columns[2]);
        check_script(report, &format!("new shares: {row}"), &script, &answers)?;
    }
    Ok(())
}

/// What the first set-up took is freed again.
fn set_ups(report: &mut Report) -> io::Result<()> {
    for row in SET_UPS.lines() {
        let columns = columns(row);
        let (put, held) = put_both(columns[0]);
        let post = columns[1];
        let set_up = format!("setup 1{post} 0 5 0 1\n");
        let script = format!(
            "{MARKED}{put}{set_up}unplace {held}\nshares {}\n{set_up}",
            columns[3]
        );
        let answer = |word| match word {
            "admitted" => format!("admitted {post} {held} 254000 25600080"),
            number => format!("refused {number}"),
        };
        let (before, after) = (answer(columns[2]), answer(columns[4]));
        let lines = held + 3;
        let answers = format!(
            "{lines} {before}\n{} taken\n{} {after}\n",
            lines + 2,
            lines + 3
        );
        check_script(
            report,
            &format!("new shares, set-up: {row}"),
            &script,
            &answers,
        )?;
    }
    Ok(())
}

/// The call is in place 31; shares that let everything in stand before.
fn moves(report: &mut Report) -> io::Result<()> {
    for row in MOVES.lines() {
        let columns = columns(row);
        let (put, held) = put_both(columns[0]);
        let (first, second) = two_numbers(columns[1]);
        let script = format!(
            "shares 0 32 0 32\n{put}place 31 5 {first}\nsecond 31 {second}\nshares {}\n\
             post {first} 25 25800280\n",
            columns[2]
        );
        let lines = held + 4;
        let answers = format!("1 taken\n{lines} taken\n{} {}\n", lines + 1, columns[3]);
        check_script(
            report,
            &format!("new shares, a move: {row}"),
            &script,
            &answers,
        )?;
    }
    Ok(())
}

/// The whole desk after a change: new shares, nothing past the posts, all else as it was.
fn nothing_else(report: &mut Report) -> io::Result<()> {
    let share = |reserved, ceiling| Post { reserved, ceiling };
    let mut places: Places = ALL_FREE;
    places[9] = Some(Call {
        identifier: 16_383,
        post: 1,
        second: Some(0),
        cause: 31,
    });
    let mut desk = Desk {
        profile: sample(),
        places,
    };
    let mut rows: Rows = [share(255, 0); 8];
    rows[0] = share(4, 29);
    rows[1] = share(1, 7);
    let answer = desk.change_shares(&rows);
    let wanted = Desk {
        profile: Profile {
            posts: vec![share(4, 29), share(1, 7)],
            ..sample()
        },
        places,
    };
    report.check(
        "desk: new shares are stored and nothing else changes",
        answer == Ok(Answer::Taken) && desk == wanted,
    )?;
    let bytes = profile_bytes(&desk.profile);
    report.check(
        "desk: the rows past the posts are 0",
        bytes[..23] == profile_bytes(&sample())[..23]
            && bytes[23..27] == [4, 29, 1, 7]
            && bytes[27..39] == [0; 12]
            && bytes[39..] == [1, 2],
    )?;

    rows[0] = share(4, 0);
    let broke_rule = desk.change_shares(&rows);
    rows[0] = share(32, 32);
    rows[1] = share(0, 7);
    let did_not_fit = desk.change_shares(&rows);
    report.check(
        "desk: 23 and 24 leave the desk",
        broke_rule == Err(Number(23)) && did_not_fit == Err(Number(24)) && desk == wanted,
    )
}
