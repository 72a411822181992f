//! Writing a value into a byte area, and below it the bits of a message, element by element.
//! `bits_of` checks nothing: a message that reading would refuse is written as it stands.

use crate::ack::put_ack;
use crate::interrogate_ack::put_interrogate_ack;
use crate::message::{Address, Group, Message};
use crate::profile::Profile;
use crate::refusal::Refusal::{self, Number};
use crate::request::put_options;
use crate::value::{valid_message, Value};

/// Writes the value from byte 0 on and gives its bit length; the spare bits of the last byte
/// are zero and no later byte is touched. A refusal leaves the area as it stood.
pub fn write(profile: &Profile, value: &Value, area: &mut [u8]) -> Result<usize, Refusal> {
    if !profile.keeps_rules() {
        return Err(Number(1));
    }
    let message = valid_message(profile, value).ok_or(Number(22))?;
    let bits = bits_of(profile, &message);
    let bytes = bytes_of(&bits);
    if area.len() < bytes.len() {
        return Err(Number(14));
    }
    area[..bytes.len()].copy_from_slice(&bytes);
    Ok(bits.len())
}

/// Appends one element, most significant bit first.
pub fn put(bits: &mut Vec<bool>, number: u32, width: usize) {
    for place in (0..width).rev() {
        bits.push((number >> place) & 1 == 1);
    }
}

/// The bits of a row of elements, each given as its number and width.
pub fn elements(row: &[(u32, usize)]) -> Vec<bool> {
    let mut bits = Vec::new();
    for (number, width) in row {
        put(&mut bits, *number, *width);
    }
    bits
}

pub fn bits_of(profile: &Profile, message: &Message) -> Vec<bool> {
    let mut bits = elements(&[(profile.ss_type, 6), (message.pdu_type(), 5)]);
    match message {
        Message::Activate { users, dispatchers } => {
            put_group(&mut bits, users);
            put_option_present(&mut bits, dispatchers.is_some());
            if let Some(group) = dispatchers {
                put_group(&mut bits, group);
            }
        }
        Message::Deactivate { users } => put_group(&mut bits, users),
        Message::ActivateAck(ack) | Message::DeactivateAck(ack) => put_ack(&mut bits, ack),
        Message::Interrogate { user } => put_address(&mut bits, user),
        Message::InterrogateAck(ack) => put_interrogate_ack(&mut bits, ack),
        Message::Intercepted { cause, dispatcher }
        | Message::Diverted { cause, dispatcher }
        | Message::Rejected { cause, dispatcher } => {
            put(&mut bits, *cause, 5);
            put_option_present(&mut bits, dispatcher.is_some());
            if let Some(address) = dispatcher {
                put_address(&mut bits, address);
            }
        }
        Message::Accept { identifier }
        | Message::Divert { identifier }
        | Message::Cancel { identifier } => put(&mut bits, *identifier, 14),
        Message::Reject { identifier, cause } => {
            put(&mut bits, *identifier, 14);
            put(&mut bits, *cause, 5);
        }
        Message::Request {
            identifier,
            cause,
            options,
        } => {
            put(&mut bits, *identifier, 14);
            put(&mut bits, *cause, 5);
            put_options(&mut bits, options);
        }
        Message::Accepted => {}
    }
    bits
}

pub fn put_group(bits: &mut Vec<bool>, group: &Group) {
    put(bits, group.range, 4);
    for address in &group.addresses {
        put_address(bits, address);
    }
}

pub fn put_address(bits: &mut Vec<bool>, address: &Address) {
    put(bits, address.kind, 2);
    put(bits, address.ssi, 24);
    if address.kind == 2 {
        put(bits, address.extension, 24);
    }
}

/// The O-bit, and after an O-bit of 1 the P-bit.
fn put_option_present(bits: &mut Vec<bool>, present: bool) {
    if present {
        put(bits, 0b11, 2);
    } else {
        put(bits, 0, 1);
    }
}

pub fn bytes_of(bits: &[bool]) -> Vec<u8> {
    let mut bytes = Vec::new();
    for eight in bits.chunks(8) {
        let mut byte = 0;
        for (from_top, bit) in eight.iter().enumerate() {
            byte |= u8::from(*bit) << (7 - from_top);
        }
        bytes.push(byte);
    }
    bytes
}
