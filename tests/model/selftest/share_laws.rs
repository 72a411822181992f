//! Laws of shares over long histories, as the ledger tells them, and as a desk shows that was
//! opened with the new shares. The model's own shares are only compared with them.

use super::laws::{enough, run_history, Laws, LINES_OF_HISTORY};
use super::ledger::{fit, marked, pairs, Ledger, Share};
use super::share_variants::Variants;
use super::Report;
use crate::desk::{Answer, Desk, Lent, Rows};
use crate::event::named;
use crate::profile::{Post, Profile};
use crate::refusal::Refusal::Number;
use crate::replay::Replay;
use crate::script::Line;
use crate::step::Step;
use std::io;

const SEEDS: [u64; 3] = [17, 18, 19];

named! { Law, LAWS:
    SharesTold: "the shares in force are those of the last profile, or those taken since",
    ChangesCounted: "every change is answered as counted",
    SetUpsCounted: "every admission and every 18 is explained by the shares in force",
    ReserveOpen: "a call for a post below its reserved number is never refused",
    NothingElse: "a taken change leaves all but the shares, every waiting call among it",
    SoundAfter: "a taken change leaves a sound desk",
    RefusedLeaves: "a refused change leaves everything",
    AsOpened: "a taken change leaves the desk that is opened with these shares and the same calls",
    LentAnew: "23 where no desk opens with the shares, 24 where one with the calls is unsound",
    RowsPast: "rows past the posts alter neither the answer nor the desk",
    WayBack: "a change back is taken, and leaves the desk as it was",
    SameTaken: "the shares in force are taken on any sound desk",
}

/// What the histories showed so far.
#[derive(Default)]
struct Seen {
    laws: Laws<Law>,
    variants: Variants,
    taken: usize,
    broke_rule: usize,
    did_not_fit: usize,
    /// Admissions and refusals that the shares of the last profile would not explain.
    admitted_by_change: usize,
    refused_by_change: usize,
}

pub(super) fn histories(report: &mut Report) -> io::Result<()> {
    let mut seen = Seen::default();
    for seed in SEEDS {
        seen.follow(seed);
    }
    let lines = SEEDS.len() * LINES_OF_HISTORY;
    let all = format!("desk: {lines} lines with new shares:");
    seen.laws.check(report, &all, LAWS)?;
    let Seen {
        taken,
        broke_rule,
        did_not_fit,
        admitted_by_change,
        refused_by_change,
        ..
    } = seen;
    report.check(
        &format!(
            "{all} taken {taken} times, 23 {broke_rule}, 24 {did_not_fit}; by changed shares \
             {admitted_by_change} admissions, 18 {refused_by_change}"
        ),
        enough(&[
            taken,
            broke_rule,
            did_not_fit,
            admitted_by_change,
            refused_by_change,
        ]),
    )?;
    seen.variants.check(report, &all)
}

/// The profile's rules for shares, told a second way: no ceiling is 0 or over 32, and what is
/// reserved is taken post by post from 32 places.
pub(super) fn keep_rules(shares: &[Share]) -> bool {
    let mut left = 32;
    for (reserved, ceiling) in shares {
        if *ceiling == 0 || *ceiling > 32 || reserved > ceiling || *reserved > left {
            return false;
        }
        left -= reserved;
    }
    true
}

fn wanted(ledger: &Ledger, shares: &[Share]) -> &'static str {
    if !ledger.is_sound() {
        "refused 1"
    } else if !keep_rules(shares) {
        "refused 23"
    } else if !fit(shares, &ledger.held) {
        "refused 24"
    } else {
        "taken"
    }
}

impl Seen {
    fn follow(&mut self, seed: u64) {
        let mut ledger = Ledger::new();
        let mut of_profile = ledger.shares.clone();
        run_history(seed, |line, step| {
            let (before, answer) = (&step.before.desk, step.answer);
            match &line {
                Line::Shares(rows) => {
                    let shares = pairs(&rows[..ledger.shares.len()]);
                    let as_counted = answer == wanted(&ledger, &shares);
                    self.laws.hold(Law::ChangesCounted, as_counted);
                    self.variants.compare(&ledger, rows, answer);
                    self.changed(step, rows);
                }
                Line::SetUp { caller, called, .. } => {
                    let records = &step.before.records;
                    let post = marked(records, *caller).or_else(|| marked(records, *called));
                    if let Some(post) = post {
                        self.set_up(&ledger, &of_profile, post, answer);
                    }
                }
                _ => {}
            }
            ledger.note(&before.profile, &step.after.records, &line, answer);
            if matches!(line, Line::Profile(_)) && answer.is_empty() {
                of_profile = ledger.shares.clone();
            }
            let told = ledger.shares == pairs(&step.after.desk.profile.posts)
                && ledger.places == step.after.desk.places;
            self.laws.hold(Law::SharesTold, told);
        });
    }

    /// One call more at the post fits, or it doesn't.
    fn set_up(&mut self, ledger: &Ledger, of_profile: &[Share], post: u32, answer: &str) {
        let admitted = answer.starts_with("admitted");
        if !admitted && answer != "refused 18" {
            return;
        }
        let mut held = ledger.held;
        held[post as usize] += 1;
        let fits = fit(&ledger.shares, &held);
        self.laws.hold(Law::SetUpsCounted, fits == admitted);
        let (reserved, _) = ledger.shares[post as usize];
        let below = ledger.held[post as usize] < reserved;
        self.laws.hold(Law::ReserveOpen, admitted || !below);
        match (admitted, fit(of_profile, &held)) {
            (true, false) => self.admitted_by_change += 1,
            (false, true) => self.refused_by_change += 1,
            _ => {}
        }
    }

    fn changed(&mut self, step: Step, rows: &Rows) {
        let (before, after) = (step.before, step.after);
        let posts = &rows[..before.desk.profile.posts.len()];
        match step.answer {
            "taken" => {
                self.taken += 1;
                let mut with_old = after.clone();
                with_old.desk.profile.posts = before.desk.profile.posts.clone();
                let nothing_else = same(&with_old, before);
                self.laws.hold(Law::NothingElse, nothing_else);
                self.laws.hold(Law::SoundAfter, is_sound(&after.desk));
                self.change_back(&before.desk, &after.desk);
            }
            "refused 23" => self.broke_rule += 1,
            "refused 24" => self.did_not_fit += 1,
            _ => {}
        }
        if step.answer != "taken" {
            self.laws.hold(Law::RefusedLeaves, same(after, before));
        }
        if step.answer != "refused 1" {
            self.as_opened(step, posts);
            self.on_copies(&before.desk, &after.desk, rows);
        }
    }

    fn as_opened(&mut self, step: Step, posts: &[Post]) {
        let before = &step.before.desk;
        let opened = Desk::open(Profile {
            posts: posts.to_vec(),
            ..before.profile.clone()
        });
        let lent = opened.map(|opened| Desk {
            places: before.places,
            ..opened
        });
        let told = match &lent {
            Err(_) => "refused 23",
            Ok(desk) if !is_sound(desk) => "refused 24",
            Ok(_) => "taken",
        };
        self.laws.hold(Law::LentAnew, step.answer == told);
        if step.answer == "taken" {
            let same = lent.as_ref() == Ok(&step.after.desk);
            self.laws.hold(Law::AsOpened, same);
        }
    }

    /// The same change with other rows past the posts, and the shares in force as new ones.
    fn on_copies(&mut self, before: &Desk, after: &Desk, rows: &Rows) {
        let count = before.profile.posts.len();
        let answer = before.clone().change_shares(rows);
        for (reserved, ceiling) in [(0, 0), (32, 32), (255, 0)] {
            let mut others = *rows;
            others[count..].fill(Post { reserved, ceiling });
            let mut copy = before.clone();
            let same = copy.change_shares(&others) == answer && copy == *after;
            self.laws.hold(Law::RowsPast, same);
        }
        let mut copy = before.clone();
        let again = copy.change_shares(&rows_of(before)) == Ok(Answer::Taken);
        self.laws.hold(Law::SameTaken, again && copy == *before);
    }

    fn change_back(&mut self, before: &Desk, after: &Desk) {
        let mut copy = after.clone();
        let back = copy.change_shares(&rows_of(before)) == Ok(Answer::Taken);
        self.laws.hold(Law::WayBack, back && copy == *before);
    }
}

/// The shares in force, with nothing past the posts.
fn rows_of(desk: &Desk) -> Rows {
    let mut rows = Rows::default();
    rows[..desk.profile.posts.len()].copy_from_slice(&desk.profile.posts);
    rows
}

fn same(one: &Replay, other: &Replay) -> bool {
    one.desk == other.desk && one.records == other.records && one.output_bytes == other.output_bytes
}

/// A cancel of an identifier over 14 bits is 16 on a sound desk.
fn is_sound(desk: &Desk) -> bool {
    let lent = Lent {
        records: &mut [],
        output: &mut [],
    };
    desk.clone().cancel(lent, 1 << 14) == Err(Number(16))
}
