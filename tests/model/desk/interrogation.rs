//! INTERROGATE and the INTERROGATE ACK that it is answered with.

use super::{long_enough, Answer, Desk, Lent};
use crate::interrogate_ack::{Groups, InterrogateAck, Interrogation};
use crate::message::{Address, Group, Message};
use crate::profile::{Meaning, Profile};
use crate::records::{identity_of, record_of};
use crate::refusal::Refusal::{self, Number};

/// The plain answer.
#[derive(Clone, Copy, PartialEq, Eq, Debug)]
pub enum State {
    NoRecord,
    OtherPost,
    Active,
    NotActive,
}

impl Desk {
    /// 14, 15, 26. Nothing changes but the output area, from byte 0 on.
    pub(super) fn interrogate(
        &self,
        lent: Lent,
        post: u32,
        user: &Address,
    ) -> Result<Answer, Refusal> {
        long_enough(lent.output)?;
        self.sound_records(lent.records)?;
        let range = list_of_one(&self.profile).ok_or(Number(26))?;
        let identity = identity_of(&self.profile, user);
        let state = match record_of(lent.records, identity) {
            None => State::NoRecord,
            Some(number) if lent.records[number].post != post => State::OtherPost,
            Some(number) if lent.records[number].active => State::Active,
            Some(_) => State::NotActive,
        };
        let ack = InterrogateAck {
            users: Group {
                range,
                addresses: vec![*user],
            },
            mask: None,
            result: result_of(&self.profile, state),
            groups: Groups::default(),
        };
        let bits = self.put(&Message::InterrogateAck(ack), lent.output);
        Ok(Answer::State { state, bits })
    }
}

/// The lowest range value that means a list of one.
fn list_of_one(profile: &Profile) -> Option<u32> {
    (0..16).find(|range| profile.meanings[*range as usize] == Meaning::List(1))
}

/// What the desk doesn't know is the lowest value that clause 6.2 names, which is 0.
fn result_of(profile: &Profile, state: State) -> Interrogation {
    let accepted = |activation| Interrogation::Accepted {
        activation,
        interception: 0,
        called_service: 0,
        calling_service: 0,
    };
    match state {
        State::NoRecord => Interrogation::NotAccepted {
            reason: profile.failure_no_record,
        },
        State::OtherPost => Interrogation::NotAccepted {
            reason: profile.failure_other_post,
        },
        State::Active => accepted(1),
        State::NotActive => accepted(0),
    }
}
