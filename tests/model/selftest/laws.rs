//! Laws that are tried on line after line of long histories.

use super::Report;
use crate::history::Source;
use crate::script::Line;
use crate::step::{run_lines, Step};
use std::collections::BTreeSet;
use std::io;

pub const LINES_OF_HISTORY: usize = 20_000;

pub fn run_history(seed: u64, look: impl FnMut(Line, Step)) {
    let mut source = Source::new(seed);
    run_lines((0..LINES_OF_HISTORY).map(|_| source.next_line()), look);
}

/// Those that were broken so far.
pub struct Laws<L> {
    broken: BTreeSet<L>,
}

impl<L> Default for Laws<L> {
    fn default() -> Self {
        let broken = BTreeSet::new();
        Laws { broken }
    }
}

impl<L: Ord> Laws<L> {
    /// One try: a law that is broken once stays broken.
    pub fn hold(&mut self, law: L, good: bool) {
        if !good {
            self.broken.insert(law);
        }
    }

    /// A check for each of all the laws.
    pub fn check(&self, report: &mut Report, of: &str, all: &[(L, &str)]) -> io::Result<()> {
        for (law, words) in all {
            report.check(&format!("{of} {words}"), !self.broken.contains(law))?;
        }
        Ok(())
    }
}

/// A law that was tried less often says little.
pub fn enough(tries: &[usize]) -> bool {
    tries.iter().all(|times| *times >= 100)
}
