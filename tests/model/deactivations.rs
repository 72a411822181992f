//! How often each thing came in a script, run on the model, that request (i) brings: DEACTIVATE and
//! its ACKs, marks that are cleared, and calls that wait all the same. It also says whether every
//! one of them came at least once.

mod calls;
mod events;
mod marks;
mod posts;
mod reading;

use crate::counter::{count_script, Counter};
use crate::message::Group;
use crate::records::{Identity, Record};
use crate::script::Line;
use crate::step::Step;
use events::{Event, EVENTS};
use std::collections::BTreeSet;
use std::io::{self, Write};

/// Prints the counts; false if something never came.
pub fn count_deactivations(script: &[u8], out: &mut dyn Write) -> io::Result<bool> {
    count_script(EVENTS, Watch::look, script, out)
}

/// What the desk doesn't keep of the call in a place.
#[derive(Clone, Copy, Default)]
struct Past {
    /// Caller and called party of its set-up.
    parties: Option<(Identity, Identity)>,
    /// Whether the caller's mark, and the called party's, was cleared since.
    released: [bool; 2],
    /// It went to another post than its first.
    moved: bool,
}

impl Past {
    fn any_released(&self) -> bool {
        self.released.contains(&true)
    }
}

#[derive(Default)]
struct Kept {
    /// Users whose mark a DEACTIVATE cleared, until it is set again or a record is rewritten.
    released: BTreeSet<Identity>,
    /// Those of them that an ACTIVATE marked again.
    again: BTreeSet<Identity>,
    /// The last ACTIVATE or DEACTIVATE that was carried out, if the records are as it left them:
    /// the mark's value, the post and the users.
    last: Option<(bool, u32, Group)>,
}

type Watch = Counter<Event, Past, Kept>;

impl Watch {
    fn look(&mut self, line: Line, step: Step) {
        match line {
            Line::Profile(_) if step.answer.is_empty() => self.kept.last = None,
            Line::Record { number, record } => {
                self.kept.last = None;
                let overwritten = step.before.records.get(number);
                for rewritten in overwritten.into_iter().chain([&record]) {
                    let identity = identity_of(rewritten);
                    self.kept.released.remove(&identity);
                    self.kept.again.remove(&identity);
                }
            }
            Line::Place { place, .. } | Line::Unplace { place } => {
                self.pasts[place] = Past::default();
            }
            Line::SetUp {
                caller,
                called,
                identifier,
                ..
            } => self.set_up(step, caller, called, identifier),
            Line::Reject { identifier, .. } => {
                self.ended(step, identifier, Event::ReleasedRejected);
            }
            Line::Cancel { identifier } => self.ended(step, identifier, Event::ReleasedCancelled),
            Line::Post { post, bits, bytes } => self.message(step, post, &bytes, bits),
            _ => {}
        }
    }
}

fn identity_of(record: &Record) -> Identity {
    Identity {
        ssi: record.ssi,
        extension: record.extension,
    }
}
