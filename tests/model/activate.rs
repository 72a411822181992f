//! What ACTIVATE and DEACTIVATE do: an outcome for each identity, its mark set or cleared or left,
//! and the ACKs. The two differ in the mark's new value and in the type of their ACKs alone.

use crate::ack::{Ack, AckResult};
use crate::message::Group;
use crate::profile::Profile;
use crate::records::{record_of, Identity, Record};

/// Accepted, or a reason value: where U = N, the two failures are one outcome.
#[derive(Clone, Copy, PartialEq, Eq, Debug)]
pub enum Outcome {
    Accepted,
    Failed(u32),
}

/// The outcome of each identity, in order; the marks of the accepted ones become `active`, whatever
/// they were.
pub fn set_marks(
    profile: &Profile,
    records: &mut [Record],
    identities: &[Identity],
    post: u32,
    active: bool,
) -> Vec<Outcome> {
    let mut outcomes = Vec::new();
    for identity in identities {
        outcomes.push(match record_of(records, *identity) {
            None => Outcome::Failed(profile.reason_no_record),
            Some(number) if records[number].post != post => {
                Outcome::Failed(profile.reason_other_post)
            }
            Some(number) => {
                records[number].active = active;
                Outcome::Accepted
            }
        });
    }
    outcomes
}

/// One ACK for each different outcome, in the order accepted, U, N.
pub fn acks(profile: &Profile, users: &Group, outcomes: &[Outcome]) -> Vec<Ack> {
    let mut different = Vec::new();
    for outcome in [
        Outcome::Accepted,
        Outcome::Failed(profile.reason_no_record),
        Outcome::Failed(profile.reason_other_post),
    ] {
        if outcomes.contains(&outcome) && !different.contains(&outcome) {
            different.push(outcome);
        }
    }
    let several = different.len() > 1;
    different
        .iter()
        .map(|outcome| Ack {
            users: users.clone(),
            mask: if several {
                Some(outcomes.iter().map(|other| other == outcome).collect())
            } else {
                None
            },
            result: match outcome {
                Outcome::Accepted => AckResult::Accepted,
                Outcome::Failed(reason) => AckResult::NotAccepted { reason: *reason },
            },
        })
        .collect()
}
