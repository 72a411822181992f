//! Laws of moves over long histories, as the ledger tells them. The model's own places are only
//! compared with it.

use super::laws::{enough, run_history, Laws, LINES_OF_HISTORY};
use super::ledger::{fit, Accept, Ledger};
use super::Report;
use crate::desk::{Answer, Desk, Lent};
use crate::event::named;
use crate::hex::hex_of;
use crate::message::{read, Message};
use crate::profile::Profile;
use crate::records::{Identity, Record};
use crate::replay::refused;
use crate::script::Line;
use crate::write::{bits_of, bytes_of};
use std::io;

const SEEDS: [u64; 3] = [7, 8, 9];

named! { Law, LAWS:
    PlacesTold: "what waits is what answers say",
    SharesKept: "no post over its ceiling, held and owed at most 32",
    AcceptsCounted: "every ACCEPT is answered as counted",
    ReserveOpen: "a move to a post below its reserved number is never refused",
    OwnOpen: "a move to its own post is never refused",
    EndAndAdmission: "a move is answered as an end and an admission are",
    RequestWritten: "a move writes REQUEST, with the call's cause, and no byte more",
}

/// What the histories showed so far, of how many moves and refused moves.
#[derive(Default)]
struct Seen {
    laws: Laws<Law>,
    moves: usize,
    by_ceiling: usize,
    by_owed: usize,
}

pub fn check(report: &mut Report) -> io::Result<()> {
    let mut seen = Seen::default();
    for seed in SEEDS {
        seen.follow(seed);
    }
    let lines = SEEDS.len() * LINES_OF_HISTORY;
    let all = format!("desk: {lines} lines, told from the history:");
    seen.laws.check(report, &all, LAWS)?;
    let Seen {
        moves,
        by_ceiling,
        by_owed,
        ..
    } = seen;
    report.check(
        &format!("{all} {moves} moves, 18 by a ceiling {by_ceiling}, by what is owed {by_owed}"),
        enough(&[moves, by_ceiling, by_owed]),
    )
}

/// The post and the identifier of an ACCEPT that reads well.
fn accept_of(profile: &Profile, line: &Line) -> Option<(u32, u32)> {
    match line {
        Line::Post { post, bits, bytes } => match read(profile, bytes, *bits) {
            Ok(Message::Accept { identifier }) => Some((*post, identifier)),
            _ => None,
        },
        _ => None,
    }
}

impl Seen {
    fn follow(&mut self, seed: u64) {
        let mut ledger = Ledger::new();
        run_history(seed, |line, step| {
            let (before, after, answer) = (&step.before.desk, &step.after.desk, step.answer);
            let sound = ledger.is_sound();
            if let Some((post, identifier)) = accept_of(&before.profile, &line) {
                let long_enough = step.before.output_bytes >= 300;
                let wanted = ledger.accept(post, identifier, long_enough);
                let as_counted = answer == wanted.words(&before.profile);
                self.laws.hold(Law::AcceptsCounted, as_counted);
                if let Accept::Moved(second, _) | Accept::Refused18(second) = wanted {
                    self.judge(&ledger, post, second, answer);
                    self.try_on_copies(before, post, identifier, second, answer);
                }
            }
            ledger.note(&before.profile, &step.after.records, &line, answer);
            self.laws
                .hold(Law::PlacesTold, ledger.places == after.places);
            if sound && !answer.is_empty() {
                let kept = fit(&ledger.shares, &ledger.held);
                self.laws.hold(Law::SharesKept, kept);
            }
        });
    }

    fn judge(&mut self, ledger: &Ledger, first: u32, second: u32, answer: &str) {
        let (reserved, ceiling) = ledger.shares[second as usize];
        let held = ledger.held[second as usize] - u32::from(first == second);
        let got_18 = answer == "refused 18";
        let below_reserve = held < reserved;
        self.laws.hold(Law::ReserveOpen, !(got_18 && below_reserve));
        self.laws.hold(Law::OwnOpen, !(got_18 && first == second));
        match (got_18, held >= ceiling) {
            (false, _) => self.moves += 1,
            (true, true) => self.by_ceiling += 1,
            (true, false) => self.by_owed += 1,
        }
    }

    /// The ACCEPT again, to see its output area; and instead of it a cancel of the call and the
    /// set-up of one for the second post.
    fn try_on_copies(
        &mut self,
        before: &Desk,
        post: u32,
        identifier: u32,
        second: u32,
        answer: &str,
    ) {
        let mut output = [0xAA_u8; 300];
        let accept = bits_of(&before.profile, &Message::Accept { identifier });
        let lent = Lent {
            records: &mut [],
            output: &mut output,
        };
        let asked = before
            .clone()
            .message(lent, post, &bytes_of(&accept), accept.len());
        let (same, written) = match asked {
            Ok(Answer::Moved { post, bits: 31 }) => {
                let hex = hex_of(&output[..4]);
                (answer == format!("moved {post} {hex}"), 4)
            }
            Ok(_) => (false, 0),
            Err(refusal) => (answer == refused(refusal), 0),
        };
        let rest_left = output[written..].iter().all(|byte| *byte == 0xAA);
        self.laws.hold(Law::RequestWritten, same && rest_left);

        let mut copy = before.clone();
        let user = Record {
            in_use: true,
            active: true,
            post: second,
            ..Record::default()
        };
        let party = |ssi| Identity { ssi, extension: 0 };
        let lent = Lent {
            records: &mut [],
            output: &mut output,
        };
        let ended = copy.cancel(lent, identifier);
        let lent = Lent {
            records: &mut [user],
            output: &mut output,
        };
        let admitted = copy.set_up(lent, party(0), party(1), identifier, 0);
        let moved = answer.starts_with("moved");
        let same = ended == Ok(Answer::Cancelled { post, bits: 25 })
            && match admitted {
                Ok(Answer::Admitted { post, .. }) => moved && post == second,
                Ok(_) => false,
                Err(refusal) => answer == refused(refusal),
            };
        self.laws.hold(Law::EndAndAdmission, same);
    }
}
