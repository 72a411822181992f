//! The desk of one network and its calls, each with its refusals in document 01's order.
//! A call changes nothing before its last refusal is past.

mod interrogation;
mod shares;
mod waiting;

pub use interrogation::State;
pub use shares::Rows;
pub use waiting::{posts_asked, restricted};

use crate::ack::Ack;
use crate::activate::{acks, set_marks};
use crate::message::{read, Group, Message};
use crate::places::{places_keep_rules, Places, ALL_FREE};
use crate::profile::Profile;
use crate::records::{identities_of, records_keep_rules, Record};
use crate::refusal::Refusal::{self, Number};
use crate::value::flat;
use crate::write::write;

/// The output area may be longer, never shorter.
const OUTPUT_BYTES: usize = 300;
/// Message k of a call is written from byte 100 x k.
const BYTES_BETWEEN: usize = 100;

/// In what ACTIVATE and DEACTIVATE differ: the mark's new value, and the message an ACK becomes.
struct Marking {
    active: bool,
    message: fn(Ack) -> Message,
}

const ACTIVATE: Marking = Marking {
    active: true,
    message: Message::ActivateAck,
};
const DEACTIVATE: Marking = Marking {
    active: false,
    message: Message::DeactivateAck,
};

#[derive(Clone, PartialEq, Eq, Debug)]
pub struct Desk {
    pub profile: Profile,
    pub places: Places,
}

/// Bit lengths are those of the messages in the output area.
#[derive(Clone, PartialEq, Eq, Debug)]
pub enum Answer {
    Acks {
        bits: Vec<usize>,
    },
    /// The plain answer beside the message that says the same.
    State {
        state: State,
        bits: usize,
    },
    Free,
    Admitted {
        post: u32,
        place: usize,
        intercepted_bits: usize,
        request_bits: usize,
    },
    Proceed {
        bits: usize,
    },
    Moved {
        post: u32,
        bits: usize,
    },
    Diverted {
        bits: usize,
    },
    Rejected {
        bits: usize,
    },
    /// The post is the one at which the call waited.
    Cancelled {
        post: u32,
        bits: usize,
    },
    /// New shares are in force.
    Taken,
}

/// What the host lends for one call beside the desk.
pub struct Lent<'a> {
    pub records: &'a mut [Record],
    pub output: &'a mut [u8],
}

impl Desk {
    /// A desk with all places free.
    pub fn open(profile: Profile) -> Result<Desk, Refusal> {
        refuse(!profile.keeps_rules(), 1)?;
        Ok(Desk {
            profile,
            places: ALL_FREE,
        })
    }

    /// A message from a post: 1, 2, reading, 8, and then as its type has it.
    pub fn message(
        &mut self,
        lent: Lent,
        post: u32,
        bytes: &[u8],
        length: usize,
    ) -> Result<Answer, Refusal> {
        self.sound()?;
        self.known_post(post)?;
        match read(&self.profile, bytes, length)? {
            Message::Activate { users, dispatchers } => {
                self.mark(lent, post, &users, dispatchers.as_ref(), &ACTIVATE)
            }
            Message::Deactivate { users } => self.mark(lent, post, &users, None, &DEACTIVATE),
            Message::Interrogate { user } => self.interrogate(lent, post, &user),
            Message::Accept { identifier } => self.accept(lent, post, identifier),
            Message::Divert { identifier } => self.divert(lent, post, identifier),
            Message::Reject { identifier, cause } => {
                self.end_rejected(lent, post, identifier, cause)
            }
            Message::ActivateAck(_)
            | Message::DeactivateAck(_)
            | Message::InterrogateAck(_)
            | Message::Intercepted { .. }
            | Message::Request { .. }
            | Message::Accepted
            | Message::Cancel { .. }
            | Message::Diverted { .. }
            | Message::Rejected { .. } => Err(Number(8)),
        }
    }

    /// ACTIVATE and DEACTIVATE alike: 14, 15, 21. DEACTIVATE has no dispatchers, so no 21.
    fn mark(
        &self,
        lent: Lent,
        post: u32,
        users: &Group,
        dispatchers: Option<&Group>,
        marking: &Marking,
    ) -> Result<Answer, Refusal> {
        long_enough(lent.output)?;
        self.sound_records(lent.records)?;
        // An option that means "none" is as no option.
        refuse(
            dispatchers.map_or(false, |group| !group.addresses.is_empty()),
            21,
        )?;
        let identities = identities_of(&self.profile, users);
        let active = marking.active;
        let outcomes = set_marks(&self.profile, lent.records, &identities, post, active);
        let mut bits = Vec::new();
        let acks = acks(&self.profile, users, &outcomes);
        for (number, ack) in acks.into_iter().enumerate() {
            let area = &mut lent.output[BYTES_BETWEEN * number..];
            bits.push(self.put(&(marking.message)(ack), area));
        }
        Ok(Answer::Acks { bits })
    }

    fn sound(&self) -> Result<(), Refusal> {
        let sound = self.profile.keeps_rules() && places_keep_rules(&self.profile, &self.places);
        refuse(!sound, 1)
    }

    fn known_post(&self, post: u32) -> Result<(), Refusal> {
        refuse(post as usize >= self.profile.posts.len(), 2)
    }

    fn sound_records(&self, records: &[Record]) -> Result<(), Refusal> {
        refuse(!records_keep_rules(&self.profile, records), 15)
    }

    /// Writes a message of the desk's own and gives its bit length.
    fn put(&self, message: &Message, area: &mut [u8]) -> usize {
        write(&self.profile, &flat(message), area).expect("the desk's own messages are valid")
    }
}

fn refuse(ground: bool, number: u8) -> Result<(), Refusal> {
    if ground {
        Err(Number(number))
    } else {
        Ok(())
    }
}

fn long_enough(output: &[u8]) -> Result<(), Refusal> {
    refuse(output.len() < OUTPUT_BYTES, 14)
}
