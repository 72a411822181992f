//! What a DEACTIVATE or an ACTIVATE that was carried out did to whom, counted.

use super::events::Event;
use super::Watch;
use crate::message::{meaning_of, Group};
use crate::profile::{Meaning, Profile};
use crate::records::{identities_of, identity_of, record_of, Identity, Record};
use crate::replay::Replay;

/// What came of one identity, with the number of its record as it was before.
#[derive(Clone, Copy, PartialEq, Eq)]
enum Came {
    NoRecord,
    OtherPost(usize),
    Accepted(usize),
}

impl Watch {
    pub(super) fn deactivated(&mut self, before: &Replay, post: u32, users: &Group) {
        let profile = &before.desk.profile;
        let identities = identities_of(profile, users);
        let came: Vec<Came> = identities
            .iter()
            .map(|identity| came_of(&before.records, *identity, post))
            .collect();
        let outcomes = self.outcomes(profile, &came);
        if meaning_of(profile, users.range) == Meaning::FirstAndLast {
            self.range(users, identities.len(), outcomes);
        } else {
            self.list(profile, users, &identities, &came);
        }
        self.marks(before, &identities, &came);
        self.released_calls(before, post, &identities);
        let cleared = self.release(before, &identities, &came);
        let now = (false, post, users.clone());
        match &self.kept.last {
            Some((true, last_post, last_users)) if *last_post == post && last_users == users => {
                self.count_if(cleared, Event::AfterActivate);
            }
            Some(last) if *last == now => self.count(Event::AfterDeactivate),
            _ => {}
        }
        self.kept.last = Some(now);
    }

    pub(super) fn activated(&mut self, before: &Replay, post: u32, users: &Group) {
        for identity in identities_of(&before.desk.profile, users) {
            if let Came::Accepted(_) = came_of(&before.records, identity, post) {
                if self.kept.released.remove(&identity) {
                    self.count(Event::MarkedAgain);
                    self.kept.again.insert(identity);
                }
            }
        }
        let same = self.kept.last == Some((false, post, users.clone()));
        self.count_if(same, Event::ActivateAfter);
        self.kept.last = Some((true, post, users.clone()));
    }

    /// Counts the mix, and gives how many different outcomes there were but for U = N.
    fn outcomes(&mut self, profile: &Profile, came: &[Came]) -> usize {
        let accepted = came.iter().any(|one| matches!(one, Came::Accepted(_)));
        let other_post = came.iter().any(|one| matches!(one, Came::OtherPost(_)));
        let no_record = came.contains(&Came::NoRecord);
        let equal = profile.reason_no_record == profile.reason_other_post;
        self.count(match (accepted, no_record, other_post) {
            (true, false, false) => Event::AllAccepted,
            (false, _, false) => Event::AllU,
            (false, false, true) => Event::AllN,
            (true, true, false) => Event::AcceptedU,
            (true, false, true) => Event::AcceptedN,
            (false, true, true) if equal => Event::EqualOne,
            (false, true, true) => Event::UAndN,
            (true, true, true) if equal => Event::EqualTwo,
            (true, true, true) => Event::Three,
        });
        usize::from(accepted) + usize::from(no_record) + usize::from(other_post)
    }

    fn range(&mut self, users: &Group, count: usize, outcomes: usize) {
        self.count_if(count == 1, Event::RangeOfOne);
        self.count_if(count == 64, Event::RangeOf64);
        self.count_if(users.addresses[0].kind == 2, Event::RangeFar);
        self.count_if(outcomes == 3, Event::RangeMixed);
    }

    fn list(&mut self, profile: &Profile, users: &Group, identities: &[Identity], came: &[Came]) {
        let kind_is = |kind| users.addresses.iter().any(|address| address.kind == kind);
        let several = users.addresses.len() > 1;
        self.count_if(!several, Event::ListOfOne);
        self.count_if(users.addresses.len() == 15, Event::ListOfFifteen);
        self.count_if(several && !kind_is(2), Event::ListAtHome);
        self.count_if(several && !kind_is(1), Event::ListFar);
        self.count_if(kind_is(1) && kind_is(2), Event::ListOfBothKinds);
        for (place, address) in users.addresses.iter().enumerate() {
            let accepted = matches!(came[place], Came::Accepted(_));
            let home_by_kind_2 = address.kind == 2 && address.extension == profile.home_extension;
            self.count_if(accepted && home_by_kind_2, Event::HomeByKind2);
            let earlier = users.addresses[..place]
                .iter()
                .find(|other| identity_of(profile, other) == identities[place]);
            if let Some(earlier) = earlier {
                let masked = came.iter().any(|one| {
                    matches!(one, Came::Accepted(_)) != accepted
                        || (*one == Came::NoRecord) != (came[place] == Came::NoRecord)
                });
                self.count_if(accepted, Event::TwiceAccepted);
                self.count_if(!accepted, Event::TwiceFailed);
                self.count_if(masked, Event::TwiceMasked);
                self.count_if(earlier.kind != address.kind, Event::TwiceByBothKinds);
            }
        }
    }

    fn marks(&mut self, before: &Replay, identities: &[Identity], came: &[Came]) {
        let records = &before.records;
        let (mut set, mut clear) = (false, false);
        for (identity, came) in identities.iter().zip(came) {
            match came {
                Came::Accepted(number) if records[*number].active => set = true,
                Came::Accepted(_) => {
                    clear = true;
                    self.count(Event::ClearAgain);
                }
                Came::OtherPost(number) => {
                    self.count_if(records[*number].active, Event::OtherPostsLeft);
                }
                Came::NoRecord => {}
            }
            if let Came::Accepted(number) = came {
                let marked =
                    |record: &&Record| record.active && super::identity_of(record) == *identity;
                let later = &records[number + 1..];
                let higher = later.iter().filter(marked).any(|record| record.in_use);
                let unused = records.iter().filter(marked).any(|record| !record.in_use);
                self.count_if(higher, Event::HigherLeft);
                self.count_if(unused, Event::NotInUseLeft);
            }
        }
        let all_accepted = came.iter().all(|one| matches!(one, Came::Accepted(_)));
        let posts = before.desk.profile.posts.len() as u32;
        let bad = |record: &Record| {
            record.post >= posts || record.ssi >= 1 << 24 || record.extension >= 1 << 24
        };
        self.count_if(all_accepted && !set, Event::OnlyClear);
        self.count_if(set && clear, Event::SetAndClear);
        self.count_if(records.iter().any(bad), Event::BadNotInUse);
    }

    /// Notes whose mark was cleared; false if nobody's was.
    fn release(&mut self, before: &Replay, identities: &[Identity], came: &[Came]) -> bool {
        let mut cleared = false;
        for (identity, came) in identities.iter().zip(came) {
            if let Came::Accepted(number) = came {
                // Of an identity that comes twice the first one clears the mark.
                if before.records[*number].active && self.kept.released.insert(*identity) {
                    self.count(Event::Cleared);
                    self.kept.again.remove(identity);
                    cleared = true;
                }
            }
        }
        cleared
    }
}

fn came_of(records: &[Record], identity: Identity, post: u32) -> Came {
    match record_of(records, identity) {
        None => Came::NoRecord,
        Some(number) if records[number].post != post => Came::OtherPost(number),
        Some(number) => Came::Accepted(number),
    }
}
