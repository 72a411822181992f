//! The messages that are carried and how one is read from a byte buffer and a bit length.
//! Every refusal is given by document 01's number, in the order of its "Order" paragraph; a 4 says
//! which element did not fit, and where it begins.

use crate::ack::{read_ack, Ack};
use crate::bits::Bits;
use crate::element::Element;
use crate::interrogate_ack::{read_interrogate_ack, InterrogateAck};
use crate::profile::{Meaning, Profile};
use crate::refusal::Refusal::{self, Number};
use crate::request::{read_options, Options};

pub const MOST_BITS: usize = 4096;
pub const MOST_IDENTITIES: u32 = 64;

/// `extension` is 0 with kind 1, which doesn't carry one.
#[derive(Clone, Copy, PartialEq, Eq, Debug, Default)]
pub struct Address {
    pub kind: u32,
    pub ssi: u32,
    pub extension: u32,
}

/// A range number and the addresses that it announces: those of a list, or first and last.
#[derive(Clone, PartialEq, Eq, Debug)]
pub struct Group {
    pub range: u32,
    pub addresses: Vec<Address>,
}

#[derive(Clone, PartialEq, Eq, Debug)]
pub enum Message {
    Activate {
        users: Group,
        dispatchers: Option<Group>,
    },
    ActivateAck(Ack),
    Deactivate {
        users: Group,
    },
    DeactivateAck(Ack),
    Interrogate {
        user: Address,
    },
    InterrogateAck(InterrogateAck),
    Intercepted {
        cause: u32,
        dispatcher: Option<Address>,
    },
    Accept {
        identifier: u32,
    },
    Accepted,
    Divert {
        identifier: u32,
    },
    Diverted {
        cause: u32,
        dispatcher: Option<Address>,
    },
    Request {
        identifier: u32,
        /// The interception cause.
        cause: u32,
        options: Options,
    },
    Cancel {
        identifier: u32,
    },
    Reject {
        identifier: u32,
        /// The rejection cause, which REJECTED has too.
        cause: u32,
    },
    Rejected {
        cause: u32,
        dispatcher: Option<Address>,
    },
}

impl Message {
    pub fn pdu_type(&self) -> u32 {
        match self {
            Message::Activate { .. } => 2,
            Message::ActivateAck(_) => 3,
            Message::Deactivate { .. } => 4,
            Message::DeactivateAck(_) => 5,
            Message::Interrogate { .. } => 8,
            Message::InterrogateAck(_) => 9,
            Message::Intercepted { .. } => 10,
            Message::Accept { .. } => 12,
            Message::Accepted => 13,
            Message::Divert { .. } => 15,
            Message::Diverted { .. } => 16,
            Message::Request { .. } => 11,
            Message::Cancel { .. } => 14,
            Message::Reject { .. } => 17,
            Message::Rejected { .. } => 18,
        }
    }

    pub fn name(&self) -> &'static str {
        match self {
            Message::Activate { .. } => "ACTIVATE",
            Message::ActivateAck(_) => "ACTIVATE ACK",
            Message::Deactivate { .. } => "DEACTIVATE",
            Message::DeactivateAck(_) => "DEACTIVATE ACK",
            Message::Interrogate { .. } => "INTERROGATE",
            Message::InterrogateAck(_) => "INTERROGATE ACK",
            Message::Intercepted { .. } => "INTERCEPTED",
            Message::Accept { .. } => "ACCEPT",
            Message::Accepted => "ACCEPTED",
            Message::Divert { .. } => "DIVERT",
            Message::Diverted { .. } => "DIVERTED",
            Message::Request { .. } => "REQUEST",
            Message::Cancel { .. } => "CANCEL",
            Message::Reject { .. } => "REJECT",
            Message::Rejected { .. } => "REJECTED",
        }
    }
}

pub fn read(profile: &Profile, bytes: &[u8], length: usize) -> Result<Message, Refusal> {
    if !profile.keeps_rules() {
        return Err(Number(1));
    }
    if length == 0 || length > MOST_BITS || length > 8 * bytes.len() {
        return Err(Number(3));
    }
    let mut bits = Bits::new(bytes, length);
    let message = read_elements(profile, &mut bits)?;
    if bits.left() > 0 {
        return Err(Number(13));
    }
    Ok(message)
}

fn read_elements(profile: &Profile, bits: &mut Bits) -> Result<Message, Refusal> {
    // The header is both fields: neither is judged before both are there.
    let ss_type = bits.take(Element::SsType, 6)?;
    let pdu_type = bits.take(Element::PduType, 5)?;
    if ss_type != profile.ss_type {
        return Err(Number(5));
    }
    match pdu_type {
        0 | 1 | 19..=31 => Err(Number(6)),
        2 => read_activate(profile, bits),
        3 => Ok(Message::ActivateAck(read_ack(profile, bits)?)),
        4 => Ok(Message::Deactivate {
            users: read_users(profile, bits)?,
        }),
        5 => Ok(Message::DeactivateAck(read_ack(profile, bits)?)),
        8 => Ok(Message::Interrogate {
            user: read_address(bits)?,
        }),
        9 => Ok(Message::InterrogateAck(read_interrogate_ack(
            profile, bits,
        )?)),
        10 => Ok(Message::Intercepted {
            cause: bits.take(Element::Cause, 5)?,
            dispatcher: read_optional_address(bits)?,
        }),
        11 => Ok(Message::Request {
            identifier: bits.take(Element::Identifier, 14)?,
            cause: bits.take(Element::Cause, 5)?,
            options: read_options(bits)?,
        }),
        12 => Ok(Message::Accept {
            identifier: bits.take(Element::Identifier, 14)?,
        }),
        13 => Ok(Message::Accepted),
        14 => Ok(Message::Cancel {
            identifier: bits.take(Element::Identifier, 14)?,
        }),
        15 => Ok(Message::Divert {
            identifier: bits.take(Element::Identifier, 14)?,
        }),
        16 => Ok(Message::Diverted {
            cause: bits.take(Element::Cause, 5)?,
            dispatcher: read_optional_address(bits)?,
        }),
        17 => Ok(Message::Reject {
            identifier: bits.take(Element::Identifier, 14)?,
            cause: bits.take(Element::Cause, 5)?,
        }),
        18 => Ok(Message::Rejected {
            cause: bits.take(Element::Cause, 5)?,
            dispatcher: read_optional_address(bits)?,
        }),
        // 6 and 7: the CAD types that are not carried yet.
        _ => Err(Number(7)),
    }
}

fn read_activate(profile: &Profile, bits: &mut Bits) -> Result<Message, Refusal> {
    let users = read_users(profile, bits)?;
    let mut dispatchers = None;
    if read_option_present(bits)? {
        dispatchers = Some(read_group(profile, bits)?);
    }
    Ok(Message::Activate { users, dispatchers })
}

/// The O-bit, and after an O-bit of 1 the one P-bit, which has to be 1.
fn read_option_present(bits: &mut Bits) -> Result<bool, Refusal> {
    if bits.take(Element::OBit, 1)? == 0 {
        return Ok(false);
    }
    if bits.take(Element::PBit, 1)? == 0 {
        return Err(Number(12));
    }
    Ok(true)
}

fn read_optional_address(bits: &mut Bits) -> Result<Option<Address>, Refusal> {
    if read_option_present(bits)? {
        Ok(Some(read_address(bits)?))
    } else {
        Ok(None)
    }
}

pub fn read_users(profile: &Profile, bits: &mut Bits) -> Result<Group, Refusal> {
    let range = bits.take(Element::Range, 4)?;
    if meaning_of(profile, range) == Meaning::NoIdentity {
        return Err(Number(9));
    }
    read_addresses(profile, range, bits, read_address)
}

/// A group that may be "none", as all may but the users.
pub fn read_group(profile: &Profile, bits: &mut Bits) -> Result<Group, Refusal> {
    let range = bits.take(Element::Range, 4)?;
    read_addresses(profile, range, bits, read_address)
}

/// The same, with 27 where one of them is an external number.
pub fn read_destinations(profile: &Profile, bits: &mut Bits) -> Result<Group, Refusal> {
    let range = bits.take(Element::Range, 4)?;
    read_addresses(profile, range, bits, read_destination)
}

fn read_addresses(
    profile: &Profile,
    range: u32,
    bits: &mut Bits,
    read_one: fn(&mut Bits) -> Result<Address, Refusal>,
) -> Result<Group, Refusal> {
    let mut addresses = Vec::new();
    match meaning_of(profile, range) {
        Meaning::Reserved => return Err(Number(9)),
        Meaning::NoIdentity => {}
        Meaning::List(count) => {
            for _ in 0..count {
                addresses.push(read_one(bits)?);
            }
        }
        Meaning::FirstAndLast => {
            let first = read_one(bits)?;
            let last = read_one(bits)?;
            if !are_range_ends(&first, &last) {
                return Err(Number(11));
            }
            addresses.push(first);
            addresses.push(last);
        }
    }
    Ok(Group { range, addresses })
}

/// Refusal 11 is given where two addresses are not the ends of a range.
pub fn are_range_ends(first: &Address, last: &Address) -> bool {
    if first.kind != last.kind || first.extension != last.extension || first.ssi > last.ssi {
        return false;
    }
    let span = last.ssi - first.ssi + 1;
    span <= MOST_IDENTITIES
}

pub fn read_address(bits: &mut Bits) -> Result<Address, Refusal> {
    read_address_or(bits, 10)
}

/// Kind 3 is an external number, which only a destination may be; it isn't carried.
fn read_destination(bits: &mut Bits) -> Result<Address, Refusal> {
    read_address_or(bits, 27)
}

/// `external` is the refusal of kind 3.
fn read_address_or(bits: &mut Bits, external: u8) -> Result<Address, Refusal> {
    let kind = bits.take(Element::Kind, 2)?;
    match kind {
        0 => return Err(Number(10)),
        3 => return Err(Number(external)),
        _ => {}
    }
    let ssi = bits.take(Element::Ssi, 24)?;
    let extension = if kind == 2 {
        bits.take(Element::Extension, 24)?
    } else {
        0
    };
    Ok(Address {
        kind,
        ssi,
        extension,
    })
}

pub fn meaning_of(profile: &Profile, range: u32) -> Meaning {
    profile.meanings[range as usize]
}

/// How many identities a group names, which is also the width of its mask.
/// The group has to be one that reading accepts.
pub fn identity_count(profile: &Profile, group: &Group) -> usize {
    match meaning_of(profile, group.range) {
        Meaning::FirstAndLast => (group.addresses[1].ssi - group.addresses[0].ssi + 1) as usize,
        _ => group.addresses.len(),
    }
}
