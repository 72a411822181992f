//! The desk through its scripts: document 01's worked cases, the orders of refusal, and laws
//! over long histories.

use super::Report;
use crate::history::Source;
use crate::places::places_keep_rules;
use crate::replay::{replay, Replay};
use std::io;

const LINES_OF_HISTORY: usize = 30_000;

/// Two users of post 0, one of post 1, and 1,003 without a record.
const CASE_9: &str = "\
record 0 1 1001 0 0 0
record 1 1 1002 0 0 0
record 2 1 1004 0 1 0
post 0 68 245E8001F4A0007D80
dump
";

const CASE_9_ANSWERS: &str = "\
4 acks 3 73 80 80 247E8001F4A0007D9C80 247E8001F4A0007D9201 247E8001F4A0007D9102
5 dump | 0:1001:0:0:1 1:1002:0:0:1 2:1004:0:1:0
";

/// One marked user at each post; each script of places begins with them.
const MARKED: &str = "record 0 1 10 0 0 1\nrecord 1 1 11 0 1 1\n";

pub fn check(report: &mut Report) -> io::Result<()> {
    check_script(report, "case 9: three ACKs", CASE_9, CASE_9_ANSWERS)?;
    places(report)?;
    damaged_desks(report)?;
    for (what, script, answers) in super::scripts::SCRIPTS {
        check_script(report, what, script, answers)?;
    }
    shapes(report)?;
    long_history(report)
}

pub(super) fn check_script(
    report: &mut Report,
    what: &str,
    script: &str,
    answers: &str,
) -> io::Result<()> {
    let mut output = Vec::new();
    replay(script.as_bytes(), &mut output)?;
    let good = output == answers.as_bytes();
    report.check(&format!("desk: {what}"), good)?;
    if !good {
        let got = String::from_utf8_lossy(&output).into_owned();
        report.check(&format!("wanted:\n{answers}got:\n{got}"), false)?;
    }
    Ok(())
}

/// Lines that put `count` calls for a post into places from `first` on.
pub(super) fn put(first: usize, count: usize, post: u32) -> String {
    (first..first + count)
        .map(|place| format!("place {place} {} {post}\n", 100 + place))
        .collect()
}

fn places(report: &mut Report) -> io::Result<()> {
    let set_ups = "setup 10 0 5 0 1\nsetup 5 0 11 0 1\nsetup 11 0 10 0 2\n";
    let rows = [
        (
            "case 11: post 0 holds 28",
            put(0, 28, 0),
            "31 refused 18\n32 admitted 1 28 254000 25600080\n33 admitted 1 29 254000 25600100\n",
        ),
        (
            "case 12: post 1 holds 8",
            put(0, 8, 1),
            "11 admitted 0 8 254000 25600080\n12 refused 17\n13 refused 18\n",
        ),
        (
            "post 0 holds 27, one short of what is owed",
            put(0, 27, 0),
            "30 admitted 0 27 254000 25600080\n31 refused 17\n32 admitted 1 28 254000 25600100\n",
        ),
        (
            "the lowest free place is taken",
            put(0, 3, 0) + "unplace 1\n",
            "7 admitted 0 1 254000 25600080\n8 refused 17\n9 admitted 1 3 254000 25600100\n",
        ),
    ];
    for (what, put, answers) in rows {
        let script = format!("{MARKED}{put}{set_ups}");
        check_script(report, what, &script, answers)?;
    }
    Ok(())
}

/// Each ground of 1 that a script can bring about, and the edge just short of it.
fn damaged_desks(report: &mut Report) -> io::Result<()> {
    let rows = [
        (
            "identifier over 14 bits",
            "place 0 16384 0\n".to_string(),
            true,
        ),
        ("largest identifier", "place 0 16383 0\n".to_string(), false),
        ("post not below 2", "place 0 5 2\n".to_string(), true),
        (
            "two with one identifier",
            "place 0 5 0\nplace 31 5 1\n".to_string(),
            true,
        ),
        ("post 1 over its ceiling", put(0, 9, 1), true),
        ("post 1 at its ceiling", put(0, 8, 1), false),
        (
            "second post not below 2",
            "place 0 5 0\nsecond 0 2\n".to_string(),
            true,
        ),
        (
            "largest second post",
            "place 31 5 1\nsecond 31 255\n".to_string(),
            true,
        ),
        (
            "second post below 2",
            "place 0 5 0\nsecond 0 1\n".to_string(),
            false,
        ),
        (
            "second post its own",
            "place 0 5 0\nsecond 0 0\n".to_string(),
            false,
        ),
        (
            "second post of a free place",
            "second 0 2\n".to_string(),
            false,
        ),
        (
            "second post of a place freed again",
            "place 0 5 0\nsecond 0 2\nunplace 0\n".to_string(),
            false,
        ),
        (
            "second post of a call put anew",
            "place 0 5 0\nsecond 0 2\nplace 0 5 0\n".to_string(),
            false,
        ),
        (
            "cause over 5 bits",
            "place 0 5 0\ncause 0 32\n".to_string(),
            true,
        ),
        (
            "a cause of the line's largest",
            "place 31 5 0\ncause 31 255\n".to_string(),
            true,
        ),
        (
            "largest cause",
            "place 0 5 0\ncause 0 31\n".to_string(),
            false,
        ),
        ("cause of a free place", "cause 0 32\n".to_string(), false),
        (
            "cause of a place freed again",
            "place 0 5 0\ncause 0 32\nunplace 0\n".to_string(),
            false,
        ),
        (
            "cause of a call put anew",
            "place 0 5 0\ncause 0 32\nplace 0 5 0\n".to_string(),
            false,
        ),
        ("33 held and owed", put(0, 29, 0), true),
        ("32 held and owed", put(0, 28, 0), false),
    ];
    for (what, damage, damaged) in rows {
        let script = format!(
            "{damage}post 9 0\nsetup 0 0 0 0 16384\nreject 9 0\ncancel 16384\nshares 0 0\n"
        );
        let first = damage.lines().count() + 1;
        let numbers = if damaged {
            [1, 1, 1, 1, 1]
        } else {
            [2, 16, 2, 16, 23]
        };
        let answers: String = numbers
            .iter()
            .enumerate()
            .map(|(line, number)| format!("{} refused {number}\n", first + line))
            .collect();
        check_script(report, what, &script, &answers)?;
    }
    Ok(())
}

/// Lines of another shape change nothing, and lines at the edges are of the shape.
fn shapes(report: &mut Report) -> io::Result<()> {
    let before = "record 3 1 7 8 1 0\nplace 5 6 1\n";
    for line in super::script_lines::OTHER_SHAPES {
        let script = format!("{before}{line}\ndump\n");
        let answers = "3 not understood\n4 dump 5:6:1 | 3:7:8:1:0\n";
        check_script(report, &format!("other shape: {line:?}"), &script, answers)?;
    }
    for (digits, answer) in [
        (512, "refused 13"),
        (514, "refused 13"),
        (1024, "refused 13"),
        (1025, "not understood"),
        (1026, "not understood"),
    ] {
        let line = format!("post 0 12 25A0{}", "0".repeat(digits - 4));
        let good = Replay::new().run(line.as_bytes()) == Some(answer.to_string());
        report.check(&format!("desk: {digits} hex digits: {answer}"), good)?;
    }
    for line in super::script_lines::EDGES {
        let mut replay = Replay::new();
        let understood = replay.run(line.as_bytes()) != Some("not understood".to_string());
        report.check(&format!("desk: of the shape: {line:?}"), understood)?;
    }
    Ok(())
}

/// A refusal leaves everything; a call leaves a sound desk sound.
fn long_history(report: &mut Report) -> io::Result<()> {
    let mut source = Source::new(6);
    let mut replay = Replay::new();
    let (mut kept, mut sound) = (true, true);
    for _ in 0..LINES_OF_HISTORY {
        let line = source.next_line();
        let (desk, records) = (replay.desk.clone(), replay.records.clone());
        let was_sound = places_keep_rules(&desk.profile, &desk.places);
        let answer = replay.run(&line).unwrap_or_default();
        if answer.starts_with("refused") || answer == "not understood" {
            kept &= replay.desk == desk && replay.records == records;
        }
        if was_sound && !answer.is_empty() {
            sound &= places_keep_rules(&replay.desk.profile, &replay.desk.places);
        }
    }
    let all = format!("desk: {LINES_OF_HISTORY} lines of histories");
    report.check(&format!("{all}: a refusal leaves desk and records"), kept)?;
    report.check(&format!("{all}: a call leaves a sound desk sound"), sound)
}
