//! What `moves`, `requests`, `deactivations` and `shares` do alike: a script is run on the model
//! line by line, what a line brought is counted by the rule of each, and the counts are printed.

use crate::line::lines_of;
use crate::profile::PLACES;
use crate::script::Line;
use crate::step::{run_lines, Step};
use std::collections::BTreeMap;
use std::io::{self, Write};

/// What came so far, and what the rule of what came keeps from line to line.
pub struct Counter<E, P, K> {
    /// Of each place, until the desk gets a new profile.
    pub pasts: [P; PLACES as usize],
    /// Of no one place.
    pub kept: K,
    counts: BTreeMap<E, u64>,
}

impl<E: Ord, P, K> Counter<E, P, K> {
    pub fn count(&mut self, event: E) {
        *self.counts.entry(event).or_insert(0) += 1;
    }

    pub fn count_if(&mut self, came: bool, event: E) {
        if came {
            self.count(event);
        }
    }
}

/// Prints how often each of the events came in a script, in their order; false if one never did.
/// The rule counts what a line brought.
pub fn count_script<E: Ord, P: Copy + Default, K: Default>(
    events: &[(E, &str)],
    rule: fn(&mut Counter<E, P, K>, Line, Step),
    script: &[u8],
    out: &mut dyn Write,
) -> io::Result<bool> {
    let mut counter = Counter {
        pasts: [P::default(); PLACES as usize],
        kept: K::default(),
        counts: BTreeMap::new(),
    };
    run_lines(lines_of(script), |line, step| {
        if matches!(line, Line::Profile(_)) && step.answer.is_empty() {
            // A good profile frees all places.
            counter.pasts = [P::default(); PLACES as usize];
        }
        rule(&mut counter, line, step);
    });

    let mut complete = true;
    for (event, words) in events {
        let times = counter.counts.get(event).copied().unwrap_or(0);
        writeln!(out, "{times:9} {words}")?;
        complete &= times > 0;
    }
    Ok(complete)
}
