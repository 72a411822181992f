//! The identities that one history is about, few enough to meet again and again.

use crate::dice::Dice;
use crate::draw::user_ranges;
use crate::message::{meaning_of, Address, Group, MOST_IDENTITIES};
use crate::profile::{Meaning, Profile};
use crate::records::{Identity, Record};

const LARGEST_24_BITS: u32 = (1 << 24) - 1;

/// SSIs from `first` on, each at home or with the one other extension.
pub struct Cast {
    first: u32,
    count: u32,
    home: u32,
    elsewhere: u32,
}

impl Cast {
    pub fn draw(dice: &mut Dice, home: u32) -> Cast {
        let count = 4 + dice.below(60) as u32;
        let first = match dice.below(4) {
            0 => 0,
            1 => LARGEST_24_BITS - (count - 1),
            _ => 1000,
        };
        Cast {
            first,
            count,
            home,
            elsewhere: dice.pick(&[home ^ 1, 0, 77, LARGEST_24_BITS]),
        }
    }

    pub fn identity(&self, dice: &mut Dice) -> Identity {
        Identity {
            ssi: self.first + dice.below(self.count as usize) as u32,
            extension: if dice.one_in(4) {
                self.elsewhere
            } else {
                self.home
            },
        }
    }

    /// All of them.
    pub fn identities(&self) -> Vec<Identity> {
        let mut identities = Vec::new();
        for ssi in self.first..self.first + self.count {
            for extension in [self.home, self.elsewhere] {
                identities.push(Identity { ssi, extension });
            }
        }
        identities
    }

    /// An address of kind 1, or of kind 2 with any extension of the cast, home included.
    pub fn address(&self, dice: &mut Dice) -> Address {
        let identity = self.identity(dice);
        self.address_of(dice, identity)
    }

    pub fn address_of(&self, dice: &mut Dice, identity: Identity) -> Address {
        let Identity { ssi, extension } = identity;
        if extension == self.home && dice.one_in(2) {
            Address {
                kind: 1,
                ssi,
                extension: 0,
            }
        } else {
            Address {
                kind: 2,
                ssi,
                extension,
            }
        }
    }

    /// A record of the cast; one identity comes to have several, in use or not.
    pub fn record(&self, dice: &mut Dice, profile: &Profile) -> Record {
        let Identity { ssi, extension } = self.identity(dice);
        Record {
            in_use: !dice.one_in(5),
            ssi,
            extension,
            post: dice.below(profile.posts.len()) as u32,
            active: dice.one_in(3),
        }
    }

    /// Users of any range that they may have; in a list an address may come twice.
    pub fn users(&self, dice: &mut Dice, profile: &Profile) -> Group {
        let range = user_range(dice, profile);
        let mut addresses = Vec::new();
        if let Meaning::List(count) = meaning_of(profile, range) {
            for _ in 0..count {
                let address = match addresses.is_empty() || !dice.one_in(4) {
                    true => self.address(dice),
                    false => dice.pick(&addresses),
                };
                addresses.push(address);
            }
        } else {
            addresses = self.range_ends(dice);
        }
        Group { range, addresses }
    }

    /// Users who are some of these, in any order and some of them more than once; a range begins
    /// at one of them.
    pub fn users_of(&self, dice: &mut Dice, profile: &Profile, some: &[Identity]) -> Group {
        let range = user_range(dice, profile);
        let mut addresses = Vec::new();
        if let Meaning::List(count) = meaning_of(profile, range) {
            for _ in 0..count {
                let identity = dice.pick(some);
                addresses.push(self.address_of(dice, identity));
            }
        } else {
            let identity = dice.pick(some);
            let first = self.address_of(dice, identity);
            addresses = range_from(dice, first);
        }
        Group { range, addresses }
    }

    /// First and last of a range that begins within the cast and may run past its end.
    fn range_ends(&self, dice: &mut Dice) -> Vec<Address> {
        let first = self.address(dice);
        range_from(dice, first)
    }
}

/// First and last of a range that begins so.
fn range_from(dice: &mut Dice, first: Address) -> Vec<Address> {
    let most = (LARGEST_24_BITS - first.ssi + 1).min(MOST_IDENTITIES);
    let span = match dice.below(3) {
        0 => most,
        _ => 1 + dice.below(most.min(8) as usize) as u32,
    };
    let last = Address {
        ssi: first.ssi + span - 1,
        ..first
    };
    vec![first, last]
}

/// A range value that users may have; the profile has one.
fn user_range(dice: &mut Dice, profile: &Profile) -> u32 {
    dice.pick(&user_ranges(profile))
}
