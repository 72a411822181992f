//! Wrong readings of what new shares are answered. Each has to differ from the model's answers in
//! the histories, or these would not show a product that reads the request so.

use super::ledger::{fit, pairs, Ledger, Share};
use super::share_laws::keep_rules;
use super::Report;
use crate::desk::Rows;
use std::io;

/// A ledger, the shares of the posts, and all eight of them.
type Reading = fn(&Ledger, &[Share], &[Share]) -> bool;

/// What is asked of the desk, of the shares alone, and of the shares with what is held, in the
/// order in which they are asked; and the refusal where the answer is no.
struct Variant {
    words: &'static str,
    asked: [(u32, Reading); 3],
}

const SOUND: (u32, Reading) = (1, |ledger, _, _| ledger.is_sound());
const RULES: (u32, Reading) = (23, |_, shares, _| keep_rules(shares));
const FIT: (u32, Reading) = (24, |ledger, shares, _| fit(shares, &ledger.held));

const VARIANTS: [Variant; 16] = [
    Variant {
        words: "24 without the held",
        asked: [
            SOUND,
            RULES,
            (24, |_, shares, _| {
                shares.iter().map(|share| share.0).sum::<u32>() <= 32
            }),
        ],
    },
    Variant {
        words: "24 without the ceilings",
        asked: [
            SOUND,
            RULES,
            (24, |ledger, shares, _| larger_ones(ledger, shares) <= 32),
        ],
    },
    Variant {
        words: "24 by the ceilings alone",
        asked: [
            SOUND,
            RULES,
            (24, |ledger, shares, _| below_ceilings(ledger, shares, 1)),
        ],
    },
    Variant {
        words: "24 at the ceiling already",
        asked: [
            SOUND,
            RULES,
            (24, |ledger, shares, _| {
                below_ceilings(ledger, shares, 0) && fit(shares, &ledger.held)
            }),
        ],
    },
    Variant {
        words: "24 at a sum of 32 already",
        asked: [
            SOUND,
            RULES,
            (24, |ledger, shares, _| {
                fit(shares, &ledger.held) && larger_ones(ledger, shares) < 32
            }),
        ],
    },
    Variant {
        words: "24 from a sum of 34 on",
        asked: [
            SOUND,
            RULES,
            (24, |ledger, shares, _| {
                below_ceilings(ledger, shares, 1) && larger_ones(ledger, shares) <= 33
            }),
        ],
    },
    Variant {
        words: "24 by reserved numbers and held together",
        asked: [
            SOUND,
            RULES,
            (24, |ledger, shares, _| {
                let reserved: u32 = shares.iter().map(|share| share.0).sum();
                let held: u32 = ledger.held.iter().sum();
                fit(shares, &ledger.held) && reserved + held <= 32
            }),
        ],
    },
    Variant {
        words: "24 by the shares in force",
        asked: [
            SOUND,
            RULES,
            (24, |ledger, _, _| fit(&ledger.shares, &ledger.held)),
        ],
    },
    Variant {
        words: "24 without the last post",
        asked: [
            SOUND,
            RULES,
            (24, |ledger, shares, _| {
                fit(&shares[..shares.len() - 1], &ledger.held)
            }),
        ],
    },
    Variant {
        words: "24 before 23",
        asked: [SOUND, FIT, RULES],
    },
    Variant {
        words: "23 before 1",
        asked: [RULES, SOUND, FIT],
    },
    Variant {
        words: "24 before 1",
        asked: [RULES, FIT, SOUND],
    },
    Variant {
        words: "23 by rows past the posts",
        asked: [SOUND, (23, |_, _, all| keep_rules(all)), FIT],
    },
    Variant {
        words: "23 by rows past the posts but for empty ones",
        asked: [
            SOUND,
            (23, |_, shares, all| {
                let empty = |share: &&Share| **share != (0, 0);
                let past = all[shares.len()..].iter().filter(empty);
                let given: Vec<Share> = shares.iter().chain(past).copied().collect();
                keep_rules(&given)
            }),
            FIT,
        ],
    },
    Variant {
        words: "23 without the sum",
        asked: [
            SOUND,
            (23, |_, shares, _| {
                shares.iter().all(|share| keep_rules(&[*share]))
            }),
            FIT,
        ],
    },
    Variant {
        words: "23 without the lowest ceiling",
        asked: [
            SOUND,
            (23, |_, shares, _| {
                let raised = |share: &Share| (share.0, share.1.max(1));
                let shares: Vec<Share> = shares.iter().map(raised).collect();
                keep_rules(&shares)
            }),
            FIT,
        ],
    },
];

/// The sum of the larger of reserved number and held.
fn larger_ones(ledger: &Ledger, shares: &[Share]) -> u32 {
    let larger = |(post, share): (usize, &Share)| share.0.max(ledger.held[post]);
    shares.iter().enumerate().map(larger).sum()
}

/// No post holds so many over its ceiling, or more.
fn below_ceilings(ledger: &Ledger, shares: &[Share], over: u32) -> bool {
    let mut posts = shares.iter().enumerate();
    posts.all(|(post, share)| ledger.held[post] < share.1 + over)
}

/// How often each of the readings differed.
#[derive(Default)]
pub(super) struct Variants {
    differed: [usize; VARIANTS.len()],
}

impl Variants {
    pub(super) fn compare(&mut self, ledger: &Ledger, rows: &Rows, answer: &str) {
        let all = pairs(rows);
        let shares = &all[..ledger.shares.len()];
        for (differed, variant) in self.differed.iter_mut().zip(&VARIANTS) {
            let refused = variant
                .asked
                .iter()
                .find(|(_, asked)| !asked(ledger, shares, &all));
            let by_variant = match refused {
                Some((number, _)) => format!("refused {number}"),
                None => "taken".to_string(),
            };
            *differed += usize::from(by_variant != answer);
        }
    }

    pub(super) fn check(&self, report: &mut Report, of: &str) -> io::Result<()> {
        for (differed, variant) in self.differed.iter().zip(&VARIANTS) {
            let what = format!("{of} {} would be found {differed} times", variant.words);
            report.check(&what, *differed >= 10)?;
        }
        Ok(())
    }
}
