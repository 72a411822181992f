//! INTERROGATE ACK, read and written, as table 27 of 001 has it: the users, a mask or none, the
//! result with what belongs to it, and four optional groups behind one O-bit, each behind its P-bit.
//! Basic service stands called, calling here.

use crate::ack::{put_mask, read_mask};
use crate::bits::Bits;
use crate::element::Element;
use crate::message::{meaning_of, read_destinations, read_group, read_users, Group};
use crate::profile::{Meaning, Profile};
use crate::refusal::Refusal::{self, Number};
use crate::request::{read_behind_p_bit, AREA_BITS, SERVICE_BITS};
use crate::write::{put, put_group};

pub const FAILURE_BITS: usize = 3;

#[derive(Clone, PartialEq, Eq, Debug)]
pub struct InterrogateAck {
    pub users: Group,
    pub mask: Option<Vec<bool>>,
    pub result: Interrogation,
    pub groups: Groups,
}

#[derive(Clone, Copy, PartialEq, Eq, Debug)]
pub enum Interrogation {
    Accepted {
        activation: u32,
        interception: u32,
        called_service: u32,
        calling_service: u32,
    },
    NotAccepted {
        /// The interrogation failure reason.
        reason: u32,
    },
}

/// The four options. Each may be there and mean "none".
#[derive(Clone, PartialEq, Eq, Debug, Default)]
pub struct Groups {
    pub dispatchers: Option<Group>,
    pub sources: Option<Group>,
    pub destinations: Option<Group>,
    pub areas: Option<Areas>,
}

/// A range number and the areas that it announces: those of a list, or first and last.
#[derive(Clone, PartialEq, Eq, Debug)]
pub struct Areas {
    pub range: u32,
    pub areas: Vec<u32>,
}

pub fn read_interrogate_ack(profile: &Profile, bits: &mut Bits) -> Result<InterrogateAck, Refusal> {
    let users = read_users(profile, bits)?;
    let mask = read_mask(profile, &users, bits)?;
    let result = if bits.take(Element::Result, 1)? == 1 {
        Interrogation::Accepted {
            activation: bits.take(Element::ActivationType, 1)?,
            interception: bits.take(Element::InterceptionType, 1)?,
            called_service: bits.take(Element::BasicService, SERVICE_BITS)?,
            calling_service: bits.take(Element::BasicService, SERVICE_BITS)?,
        }
    } else {
        Interrogation::NotAccepted {
            reason: bits.take(Element::Reason, FAILURE_BITS)?,
        }
    };
    Ok(InterrogateAck {
        users,
        mask,
        result,
        groups: read_groups(profile, bits)?,
    })
}

/// Whatever the result is. 12 after the last P-bit, if there was no group behind any of them.
fn read_groups(profile: &Profile, bits: &mut Bits) -> Result<Groups, Refusal> {
    if bits.take(Element::OBit, 1)? == 0 {
        return Ok(Groups::default());
    }
    let groups = Groups {
        dispatchers: read_behind_p_bit(bits, |bits| read_group(profile, bits))?,
        sources: read_behind_p_bit(bits, |bits| read_group(profile, bits))?,
        destinations: read_behind_p_bit(bits, |bits| read_destinations(profile, bits))?,
        areas: read_behind_p_bit(bits, |bits| read_areas(profile, bits))?,
    };
    if groups == Groups::default() {
        return Err(Number(12));
    }
    Ok(groups)
}

fn read_areas(profile: &Profile, bits: &mut Bits) -> Result<Areas, Refusal> {
    let range = bits.take(Element::Range, 4)?;
    let meaning = meaning_of(profile, range);
    let count = area_count(meaning).ok_or(Number(9))?;
    let mut areas = Vec::new();
    for _ in 0..count {
        areas.push(bits.take(Element::Area, AREA_BITS)?);
    }
    if meaning == Meaning::FirstAndLast && !are_area_ends(&areas) {
        return Err(Number(11));
    }
    Ok(Areas { range, areas })
}

/// How many areas follow a range number that means this; nothing if it is reserved.
pub fn area_count(meaning: Meaning) -> Option<usize> {
    match meaning {
        Meaning::Reserved => None,
        Meaning::NoIdentity => Some(0),
        Meaning::List(count) => Some(usize::from(count)),
        Meaning::FirstAndLast => Some(2),
    }
}

/// They may be one and the same, and any number apart.
pub fn are_area_ends(ends: &[u32]) -> bool {
    ends[0] <= ends[1]
}

pub fn put_interrogate_ack(bits: &mut Vec<bool>, ack: &InterrogateAck) {
    put_group(bits, &ack.users);
    put_mask(bits, ack.mask.as_deref());
    match ack.result {
        Interrogation::Accepted {
            activation,
            interception,
            called_service,
            calling_service,
        } => {
            put(bits, 1, 1);
            put(bits, activation, 1);
            put(bits, interception, 1);
            put(bits, called_service, SERVICE_BITS);
            put(bits, calling_service, SERVICE_BITS);
        }
        Interrogation::NotAccepted { reason } => {
            put(bits, 0, 1);
            put(bits, reason, FAILURE_BITS);
        }
    }
    put_groups(bits, &ack.groups);
}

fn put_groups(bits: &mut Vec<bool>, groups: &Groups) {
    if *groups == Groups::default() {
        put(bits, 0, 1);
        return;
    }
    put(bits, 1, 1);
    for group in [&groups.dispatchers, &groups.sources, &groups.destinations] {
        put(bits, u32::from(group.is_some()), 1);
        if let Some(group) = group {
            put_group(bits, group);
        }
    }
    put(bits, u32::from(groups.areas.is_some()), 1);
    if let Some(Areas { range, areas }) = &groups.areas {
        put(bits, *range, 4);
        for area in areas {
            put(bits, *area, AREA_BITS);
        }
    }
}
