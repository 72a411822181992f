//! ACTIVATE ACK and DEACTIVATE ACK, which carry the same: the users, a mask or none, and the
//! result with its reason. Read and written once for both.

use crate::bits::Bits;
use crate::element::Element;
use crate::message::{identity_count, read_users, Group};
use crate::profile::Profile;
use crate::refusal::Refusal;
use crate::write::{put, put_group};

#[derive(Clone, PartialEq, Eq, Debug)]
pub enum AckResult {
    Accepted,
    NotAccepted { reason: u32 },
}

#[derive(Clone, PartialEq, Eq, Debug)]
pub struct Ack {
    pub users: Group,
    pub mask: Option<Vec<bool>>,
    pub result: AckResult,
}

pub fn read_ack(profile: &Profile, bits: &mut Bits) -> Result<Ack, Refusal> {
    let users = read_users(profile, bits)?;
    let mask = read_mask(profile, &users, bits)?;
    let result = if bits.take(Element::Result, 1)? == 1 {
        AckResult::Accepted
    } else {
        AckResult::NotAccepted {
            reason: bits.take(Element::Reason, 7)?,
        }
    };
    Ok(Ack {
        users,
        mask,
        result,
    })
}

/// Mask present, and the mask if it is.
pub fn read_mask(
    profile: &Profile,
    users: &Group,
    bits: &mut Bits,
) -> Result<Option<Vec<bool>>, Refusal> {
    if bits.take(Element::MaskPresent, 1)? == 0 {
        return Ok(None);
    }
    let width = identity_count(profile, users);
    Ok(Some(bits.take_bits(Element::Mask, width)?))
}

pub fn put_ack(bits: &mut Vec<bool>, ack: &Ack) {
    put_group(bits, &ack.users);
    put_mask(bits, ack.mask.as_deref());
    match ack.result {
        AckResult::Accepted => put(bits, 1, 1),
        AckResult::NotAccepted { reason } => {
            put(bits, 0, 1);
            put(bits, reason, 7);
        }
    }
}

pub fn put_mask(bits: &mut Vec<bool>, mask: Option<&[bool]>) {
    put(bits, u32::from(mask.is_some()), 1);
    if let Some(mask) = mask {
        bits.extend(mask);
    }
}
