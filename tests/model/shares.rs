//! How often each thing came in a script, run on the model, that request (vi) brings: shares that
//! change while calls wait, and what is judged by them from then on. It also says whether every one
//! of them came at least once.

mod changes;
mod events;
mod judged;
mod refused;

use crate::counter::{count_script, Counter};
use crate::desk::Desk;
use crate::message::{read, Message};
use crate::profile::Post;
use crate::script::Line;
use crate::step::Step;
use events::{Event, EVENTS};
use std::io::{self, Write};

/// Prints the counts; false if something never came.
pub fn count_shares(script: &[u8], out: &mut dyn Write) -> io::Result<bool> {
    count_script(EVENTS, Watch::look, script, out)
}

/// What the desk doesn't keep of the call in a place.
#[derive(Clone, Copy, Default)]
struct Past {
    /// The post that the call has moved away from.
    left: Option<u32>,
    /// It was there when the shares changed.
    through: bool,
}

/// Shares that are not in force.
#[derive(Default)]
struct Kept {
    /// Those before the last change that altered them.
    old: Option<Vec<Post>>,
    /// Those of the profile line, or of the start, once they were altered.
    opened: Option<Vec<Post>>,
    /// How many changes altered the shares of this desk.
    changes: usize,
    /// The changed ones of the desk before the last profile line, where that has as many posts.
    before_profile: Option<Vec<Post>>,
    /// A profile was refused since the last change.
    profile_refused: bool,
    /// Those of the last line, with its number, if they were refused since the last change.
    refused: Option<(u32, Vec<Post>)>,
}

type Watch = Counter<Event, Past, Kept>;

impl Watch {
    fn look(&mut self, line: Line, step: Step) {
        let before = &step.before.desk;
        if step.answer.is_empty() {
            match line {
                Line::Profile(_) => self.opened(before, &step.after.desk),
                Line::Place { place, .. } | Line::Unplace { place } => {
                    self.pasts[place] = Past::default();
                }
                _ => {}
            }
            return;
        }
        if !matches!(line, Line::Profile(_) | Line::Dump) {
            self.soundness(before, step.answer);
        }
        match line {
            Line::Profile(_) => self.kept.profile_refused = self.kept.changes > 0,
            Line::Shares(rows) => self.change(step, &rows),
            Line::SetUp {
                caller,
                called,
                identifier,
                ..
            } => self.set_up(step, caller, called, identifier),
            Line::Reject { identifier, .. } | Line::Cancel { identifier } => {
                self.ended(step, identifier);
            }
            Line::Post { bits, bytes, .. } => match read(&before.profile, &bytes, bits) {
                Ok(Message::Accept { identifier }) => self.accepted(step, identifier),
                Ok(Message::Divert { identifier } | Message::Reject { identifier, .. }) => {
                    self.ended(step, identifier);
                }
                _ => {}
            },
            _ => {}
        }
    }

    fn opened(&mut self, before: &Desk, after: &Desk) {
        let changed = self.kept.changes > 0;
        self.count_if(changed, Event::ProfileAfter);
        let posts = &before.profile.posts;
        let comparable = changed && posts.len() == after.profile.posts.len();
        self.kept = Kept {
            before_profile: if comparable {
                Some(posts.clone())
            } else {
                None
            },
            ..Kept::default()
        };
    }
}
