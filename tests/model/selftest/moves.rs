//! Calls of two posts: worked scripts, the places rule at a move, and the output area.

use super::desk::{check_script, put};
use super::Report;
use crate::desk::{Answer, Desk, Lent};
use crate::places::{Call, ALL_FREE};
use crate::profile::sample;
use std::io;

pub fn check(report: &mut Report) -> io::Result<()> {
    for (what, script, answers) in super::move_scripts::SCRIPTS {
        check_script(report, what, script, answers)?;
    }
    shares(report)?;
    output_area(report)
}

/// Under the sample profile (g = 2 and 4, c = 30 and 8) the call in place 31 is accepted by its
/// first post, beside so many calls more at post 0 and at post 1.
fn shares(report: &mut Report) -> io::Result<()> {
    let rows = [
        ("one below the ceiling", 0, 7, 0, 1, "moved 1 25600280"),
        ("at the ceiling", 0, 8, 0, 1, "refused 18"),
        ("free 4, owed 4", 28, 0, 1, 0, "refused 18"),
        ("free 5, owed 4", 27, 0, 1, 0, "moved 0 25600280"),
        ("only its own place free, owed 1", 28, 3, 1, 0, "refused 18"),
        (
            "only its own place free, owed 0",
            27,
            4,
            1,
            0,
            "moved 0 25600280",
        ),
        (
            "from a post at its ceiling",
            24,
            7,
            1,
            0,
            "moved 0 25600280",
        ),
        (
            "none free but owed to the second post",
            27,
            0,
            0,
            1,
            "moved 1 25600280",
        ),
        (
            "none free but the last one owed to it",
            27,
            3,
            0,
            1,
            "moved 1 25600280",
        ),
        (
            "no other place free, at its reserved number",
            27,
            4,
            0,
            1,
            "moved 1 25600280",
        ),
        (
            "to its own post, no other free",
            28,
            3,
            1,
            1,
            "moved 1 25600280",
        ),
        (
            "to its own post at the ceiling",
            24,
            7,
            1,
            1,
            "moved 1 25600280",
        ),
    ];
    for (what, at_0, at_1, first, second, answer) in rows {
        let script = format!(
            "{}{}place 31 5 {first}\nsecond 31 {second}\npost {first} 25 25800280\n",
            put(0, at_0, 0),
            put(at_0, at_1, 1)
        );
        let answers = format!("{} {answer}\n", at_0 + at_1 + 3);
        check_script(report, &format!("a move: {what}"), &script, &answers)?;
    }
    Ok(())
}

/// A move writes REQUEST, the ACCEPT after it ACCEPTED, and neither a byte more.
fn output_area(report: &mut Report) -> io::Result<()> {
    let accept = [0x25, 0x80, 0x02, 0x80];
    let mut desk = Desk::open(sample()).expect("the sample profile keeps the rules");
    desk.places[7] = Some(Call {
        identifier: 5,
        post: 0,
        second: Some(1),
        cause: 31,
    });
    let mut output = [0xAA_u8; 300];
    let ask = |desk: &mut Desk, post: u32, output: &mut [u8]| {
        let lent = Lent {
            records: &mut [],
            output,
        };
        desk.message(lent, post, &accept, 25)
    };

    let moved = ask(&mut desk, 0, &mut output);
    let mut places = ALL_FREE;
    places[7] = Some(Call {
        identifier: 5,
        post: 1,
        second: None,
        cause: 31,
    });
    // 25600280 is REQUEST for call 5 with cause 0; 31 fills the five bits from bit 25 on.
    let written = output[..4] == [0x25, 0x60, 0x02, 0xFC] && output[4..] == [0xAA; 296];
    report.check(
        "desk: a move writes REQUEST, no byte more, and changes its own place alone",
        moved == Ok(Answer::Moved { post: 1, bits: 31 }) && written && desk.places == places,
    )?;

    output.fill(0xAA);
    let proceed = ask(&mut desk, 1, &mut output);
    let written = output[..2] == [0x25, 0xA0] && output[2..] == [0xAA; 298];
    report.check(
        "desk: the second post's ACCEPT writes ACCEPTED and frees the place",
        proceed == Ok(Answer::Proceed { bits: 11 }) && written && desk.places == ALL_FREE,
    )
}
