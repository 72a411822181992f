//! Lines of a script run on the model one by one, each to be looked at with what it changed.

use crate::places::{place_of, Call};
use crate::records::records_keep_rules;
use crate::replay::Replay;
use crate::script::{read_script_line, Line, MOST_OUTPUT};

/// Runs all lines from the start of a replay; those of another shape are passed over, since they
/// change nothing.
pub fn run_lines<L: AsRef<[u8]>>(
    lines: impl IntoIterator<Item = L>,
    mut look: impl FnMut(Line, Step),
) {
    let mut replay = Replay::new();
    for written in lines {
        let written = written.as_ref();
        let before = replay.clone();
        let answer = replay.run(written).unwrap_or_default();
        if let Some(line) = read_script_line(written) {
            let step = Step {
                written,
                before: &before,
                after: &replay,
                answer: &answer,
            };
            look(line, step);
        }
    }
}

/// A line that was run, from the desk, records and output area that it found to those it left.
#[derive(Clone, Copy)]
pub struct Step<'a> {
    /// The line as it was written, which says more than what was read of it.
    pub written: &'a [u8],
    pub before: &'a Replay,
    pub after: &'a Replay,
    /// Empty if the line prints nothing.
    pub answer: &'a str,
}

impl Step<'_> {
    pub fn output_was_short(&self) -> bool {
        self.before.output_bytes < MOST_OUTPUT
    }

    /// One byte short is what tells the bound.
    pub fn output_was_one_short(&self) -> bool {
        self.before.output_bytes == MOST_OUTPUT - 1
    }

    pub fn records_were_unsound(&self) -> bool {
        !records_keep_rules(&self.before.desk.profile, &self.before.records)
    }

    /// The call that the line found waiting, and its place.
    pub fn waiting(&self, identifier: u32) -> Option<(usize, Call)> {
        let places = &self.before.desk.places;
        let place = place_of(places, identifier)?;
        Some((place, places[place]?))
    }

    /// The call that the line admitted, and its place.
    pub fn admitted(&self, identifier: u32) -> (usize, Call) {
        let places = &self.after.desk.places;
        let place = place_of(places, identifier).expect("an admitted call waits");
        (place, places[place].expect("an admitted call waits"))
    }
}
