//! Calls of two posts as they come in a history: their parties, and who is asked about them.

use super::calls::{cause, message_line};
use super::Source;
use crate::dice::Dice;
use crate::message::Message;
use crate::places::Call;
use crate::profile::Profile;
use crate::records::{record_of, Identity};

impl Source {
    /// Two parties whose marks are set, of two posts, if there are such.
    pub(super) fn parties_of_two_posts(&mut self) -> Option<(Identity, Identity)> {
        let records = &self.replay.records;
        let mut restricted = Vec::new();
        for (number, record) in records.iter().enumerate() {
            let party = Identity {
                ssi: record.ssi,
                extension: record.extension,
            };
            if record.active && record_of(records, party) == Some(number) {
                restricted.push((party, record.post));
            }
        }
        if restricted.is_empty() {
            return None;
        }
        let (caller, callers_post) = self.dice.pick(&restricted);
        restricted.retain(|(_, post)| *post != callers_post);
        if restricted.is_empty() {
            return None;
        }
        let (called, _) = self.dice.pick(&restricted);
        Some((caller, called))
    }

    /// A call with a second post: mostly accepted where it waits, else asked of another post or
    /// ended before it moves.
    pub(super) fn ask(&mut self, call: Call, second: u32) -> Vec<u8> {
        let Call {
            identifier, post, ..
        } = call;
        let (ending, post) = match self.dice.below(13) {
            0..=5 => {
                self.after_accept(post, second, identifier);
                (0, post)
            }
            6 => (0, second),
            7 => (0, self.post()),
            8 => (self.dice.pick(&[1, 2, 4]), second),
            chosen => (chosen - 8, post),
        };
        end_line(
            &mut self.dice,
            &self.replay.desk.profile,
            ending,
            post,
            identifier,
        )
    }

    /// Often the first post asks again, or the second one ends the call; not where other lines
    /// would come between.
    fn after_accept(&mut self, first: u32, second: u32, identifier: u32) {
        if !self.waiting.is_empty() {
            return;
        }
        let profile = &self.replay.desk.profile;
        if self.dice.one_in(3) {
            let ending = self.dice.pick(&[0, 0, 0, 4]);
            let line = end_line(&mut self.dice, profile, ending, first, identifier);
            self.waiting.push_back(line);
        }
        let ending = self.dice.below(9);
        if ending < ENDINGS {
            let line = end_line(&mut self.dice, profile, ending, second, identifier);
            self.waiting.push_back(line);
        }
    }
}

/// How many there are for `end_line`.
pub(super) const ENDINGS: usize = 5;

/// ACCEPT, DIVERT, reject, cancel or REJECT.
pub(super) fn end_line(
    dice: &mut Dice,
    profile: &Profile,
    ending: usize,
    post: u32,
    identifier: u32,
) -> Vec<u8> {
    match ending {
        0 => message_line(profile, post, &Message::Accept { identifier }),
        1 => message_line(profile, post, &Message::Divert { identifier }),
        2 => format!("reject {post} {identifier}").into_bytes(),
        3 => format!("cancel {identifier}").into_bytes(),
        _ => {
            let cause = cause(dice);
            message_line(profile, post, &Message::Reject { identifier, cause })
        }
    }
}
