//! User records, the identities that addresses name, and the record of an identity.

use crate::message::{meaning_of, Address, Group};
use crate::profile::{Meaning, Profile};

pub const MOST_RECORDS: usize = 128;

#[derive(Clone, Copy, PartialEq, Eq, Debug, Default)]
pub struct Record {
    pub in_use: bool,
    pub ssi: u32,
    pub extension: u32,
    pub post: u32,
    /// The active mark.
    pub active: bool,
}

/// Identity is the pair of SSI and extension.
#[derive(Clone, Copy, PartialEq, Eq, PartialOrd, Ord, Debug)]
pub struct Identity {
    pub ssi: u32,
    pub extension: u32,
}

/// The number of the lowest-numbered record in use that has the identity.
pub fn record_of(records: &[Record], identity: Identity) -> Option<usize> {
    records.iter().position(|record| {
        record.in_use && record.ssi == identity.ssi && record.extension == identity.extension
    })
}

/// False is refusal 15. A record that isn't in use may hold anything.
pub fn records_keep_rules(profile: &Profile, records: &[Record]) -> bool {
    records.len() <= MOST_RECORDS
        && records
            .iter()
            .filter(|record| record.in_use)
            .all(|record| record_keeps_rules(profile, record))
}

fn record_keeps_rules(profile: &Profile, record: &Record) -> bool {
    (record.post as usize) < profile.posts.len()
        && record.ssi < 1 << 24
        && record.extension < 1 << 24
}

/// An address of kind 1 has the home extension.
pub fn identity_of(profile: &Profile, address: &Address) -> Identity {
    Identity {
        ssi: address.ssi,
        extension: if address.kind == 1 {
            profile.home_extension
        } else {
            address.extension
        },
    }
}

/// The identities of a group that reading accepts, in order: each of a list, also where one
/// comes twice, or all from first to last.
pub fn identities_of(profile: &Profile, group: &Group) -> Vec<Identity> {
    if meaning_of(profile, group.range) != Meaning::FirstAndLast {
        return group
            .addresses
            .iter()
            .map(|address| identity_of(profile, address))
            .collect();
    }
    let first = identity_of(profile, &group.addresses[0]);
    let last = identity_of(profile, &group.addresses[1]);
    (first.ssi..=last.ssi)
        .map(|ssi| Identity { ssi, ..first })
        .collect()
}
