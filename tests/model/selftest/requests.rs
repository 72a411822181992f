//! REQUEST, REJECT, REJECTED and CANCEL: worked scripts, the whole output area, and what long
//! histories answer, told from lines and answers alone by the ledger.

use super::desk::check_script;
use super::laws::{enough, run_history, LINES_OF_HISTORY};
use super::ledger::{request_hex, Ledger};
use super::Report;
use crate::desk::{Answer, Desk, Lent};
use crate::message::{read, Message};
use crate::places::Call;
use crate::profile::{sample, Profile};
use crate::records::{Identity, Record};
use crate::refusal::Refusal::{self, Number};
use crate::script::Line;
use std::io;

const SEEDS: [u64; 2] = [10, 11];

pub fn check(report: &mut Report) -> io::Result<()> {
    for (what, script, answers) in super::request_scripts::SCRIPTS {
        check_script(report, what, script, answers)?;
    }
    output_areas(report)?;
    histories(report)
}

/// Each call on an area of AA: the bytes that are written and not one more.
fn output_areas(report: &mut Report) -> io::Result<()> {
    let mut desk = Desk::open(sample()).expect("the sample profile keeps the rules");
    let mut records = [Record {
        in_use: true,
        ssi: 1001,
        active: true,
        ..Record::default()
    }];
    let party = |ssi| Identity { ssi, extension: 0 };
    let mut ask = |call: &dyn Fn(&mut Desk, Lent) -> Result<Answer, Refusal>| {
        let mut output = [0xAA_u8; 300];
        let lent = Lent {
            records: &mut records,
            output: &mut output,
        };
        (call(&mut desk, lent), output)
    };
    let set_up = |desk: &mut Desk, lent: Lent| desk.set_up(lent, party(1001), party(7), 5, 2);
    let admitted = Answer::Admitted {
        post: 0,
        place: 0,
        intercepted_bits: 17,
        request_bits: 31,
    };

    let (answer, output) = ask(&set_up);
    let good = answer == Ok(admitted) && output == two_messages();
    report.check(
        "desk: an admission writes INTERCEPTED at byte 0 and REQUEST at byte 100, no byte more",
        good,
    )?;

    let (answer, output) = ask(&|desk, lent| desk.message(lent, 0, &[0x26, 0x20, 0x02, 0x88], 30));
    let good = answer == Ok(Answer::Rejected { bits: 17 }) && output == area(&[0x26, 0x42, 0x00]);
    report.check(
        "desk: REJECT writes REJECTED with its cause, no byte more",
        good,
    )?;

    let waits = ask(&set_up).0.is_ok();
    let (answer, output) = ask(&|desk, lent| desk.reject(lent, 0, 5));
    let good =
        waits && answer == Ok(Answer::Rejected { bits: 17 }) && output == area(&[0x26, 0x40, 0x00]);
    report.check(
        "desk: reject writes REJECTED with cause 0, no byte more",
        good,
    )?;

    let waits = ask(&set_up).0.is_ok();
    let (answer, output) = ask(&|desk, lent| desk.cancel(lent, 5));
    let cancelled = Answer::Cancelled { post: 0, bits: 25 };
    let good = waits && answer == Ok(cancelled) && output == area(&[0x25, 0xC0, 0x02, 0x80]);
    report.check("desk: cancel writes CANCEL, no byte more", good)?;

    let (answer, output) = ask(&|desk, lent| desk.cancel(lent, 5));
    let good = answer == Err(Number(19)) && output == area(&[]);
    report.check("desk: a refused cancel writes no byte", good)
}

fn area(bytes: &[u8]) -> [u8; 300] {
    let mut area = [0xAA; 300];
    area[..bytes.len()].copy_from_slice(bytes);
    area
}

/// INTERCEPTED with cause 0, and from byte 100 on REQUEST of call 5 with cause 2.
fn two_messages() -> [u8; 300] {
    let mut two = area(&[0x25, 0x40, 0x00]);
    two[100..104].copy_from_slice(&[0x25, 0x60, 0x02, 0x88]);
    two
}

/// What came of the calls that the ledger can tell the answer of.
#[derive(Default)]
struct Told {
    rejects: usize,
    messages: usize,
    cancels: usize,
    admissions: usize,
    differ: usize,
}

fn histories(report: &mut Report) -> io::Result<()> {
    let mut told = Told::default();
    for seed in SEEDS {
        told.follow(seed);
    }
    let Told {
        rejects,
        messages,
        cancels,
        admissions,
        differ,
    } = told;
    let lines = SEEDS.len() * LINES_OF_HISTORY;
    report.check(
        &format!(
            "desk: {lines} lines, told from the history: {rejects} rejects, {messages} REJECT \
             messages, {cancels} cancels and {admissions} admissions are answered as counted"
        ),
        enough(&[rejects, messages, cancels, admissions]) && differ == 0,
    )
}

impl Told {
    fn follow(&mut self, seed: u64) {
        let mut ledger = Ledger::new();
        run_history(seed, |line, step| {
            let (profile, answer) = (&step.before.desk.profile, step.answer);
            let long_enough = step.before.output_bytes >= 300;
            if let Some(wanted) = self.wanted(&ledger, profile, &line, long_enough) {
                self.differ += usize::from(answer != wanted);
            }
            ledger.note(profile, &step.after.records, &line, answer);
            if let (Line::SetUp { identifier, .. }, true) = (&line, answer.starts_with("admitted"))
            {
                self.admissions += 1;
                let wanted = ledger.waiting(*identifier).map(|(place, call)| {
                    // INTERCEPTED: type 10, cause 0, an O-bit of 0 and seven spare bits.
                    let intercepted = profile.ss_type << 18 | 10 << 13;
                    let request = request_hex(profile, &call);
                    format!("admitted {} {place} {intercepted:06X} {request}", call.post)
                });
                self.differ += usize::from(Some(answer) != wanted.as_deref());
            }
        });
    }

    /// The answer to a reject, a cancel or a REJECT message that reads well; the grounds of
    /// refusal stand in the order of document 02.
    fn wanted(
        &mut self,
        ledger: &Ledger,
        profile: &Profile,
        line: &Line,
        long_enough: bool,
    ) -> Option<String> {
        let (post, identifier, cause) = match line {
            Line::Reject { post, identifier } => {
                self.rejects += 1;
                (Some(*post), *identifier, 0)
            }
            Line::Cancel { identifier } => {
                self.cancels += 1;
                (None, *identifier, 0)
            }
            Line::Post { post, bits, bytes } => match read(profile, bytes, *bits) {
                Ok(Message::Reject { identifier, cause }) => {
                    self.messages += 1;
                    (Some(*post), identifier, cause)
                }
                _ => return None,
            },
            _ => return None,
        };
        let waiting = ledger.waiting(identifier).map(|(_, call)| call);
        let grounds = [
            (!ledger.is_sound(), 1),
            (
                post.map_or(false, |post| post as usize >= profile.posts.len()),
                2,
            ),
            (identifier > 16_383, 16),
            (!long_enough, 14),
            (waiting.is_none(), 19),
            (post.is_some() && waiting.map(|call| call.post) != post, 20),
        ];
        for (ground, number) in grounds {
            if ground {
                return Some(format!("refused {number}"));
            }
        }
        Some(ending(profile, waiting?, post.is_none(), cause))
    }
}

/// CANCEL has 25 bits, and 7 spare ones; REJECTED 17 with its O-bit, and 7 spare ones.
fn ending(profile: &Profile, call: Call, cancelled: bool, cause: u32) -> String {
    if cancelled {
        let cancel = profile.ss_type << 26 | 14 << 21 | call.identifier << 7;
        format!("cancelled {} {cancel:08X}", call.post)
    } else {
        let rejected = profile.ss_type << 18 | 18 << 13 | cause << 8;
        format!("rejected {rejected:06X}")
    }
}
