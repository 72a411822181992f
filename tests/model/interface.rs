//! Reading and writing as a C program calls them, on numbers and byte buffers.
//! The answer is 0 or the refusal's number; on a refusal nothing that was lent is changed, but for
//! the two numbers that come with a 4.

use crate::layout::{read_profile, read_value, value_bytes, VALUE_BYTES};
use crate::message::read;
use crate::refusal::Refusal::{self, Number};
use crate::value::flat;
use crate::write::write;
use std::slice;

/// Reads a message; its value fills the first 471 bytes of the value area, which may be longer.
pub fn cad_read(profile: &[u8], message: &[u8], bits: usize, value: &mut [u8]) -> u32 {
    answer_of(try_read(profile, message, bits, value))
}

/// The same, and with a 4 also where the message broke off and the number of the element. With
/// every other answer the two stay as they stood.
pub fn cad_read_at(
    profile: &[u8],
    message: &[u8],
    bits: usize,
    value: &mut [u8],
    position: &mut u32,
    element: &mut u32,
) -> u32 {
    let outcome = try_read(profile, message, bits, value);
    if let Err(Refusal::BrokeOff {
        position: begins,
        element: broken,
    }) = outcome
    {
        *position = begins as u32;
        *element = broken.number();
    }
    answer_of(outcome)
}

/// Writes a value as a message and gives its bit length.
pub fn cad_write(profile: &[u8], value: &[u8], message: &mut [u8], bits: &mut usize) -> u32 {
    let outcome = try_write(profile, value, message);
    if let Ok(length) = outcome {
        *bits = length;
    }
    answer_of(outcome)
}

fn answer_of<T>(outcome: Result<T, Refusal>) -> u32 {
    match outcome {
        Ok(_) => 0,
        Err(refusal) => u32::from(refusal.number()),
    }
}

fn try_read(profile: &[u8], message: &[u8], bits: usize, value: &mut [u8]) -> Result<(), Refusal> {
    let profile = read_profile(profile).ok_or(Number(1))?;
    let message = read(&profile, message, bits)?;
    if value.len() < VALUE_BYTES {
        return Err(Number(14));
    }
    value[..VALUE_BYTES].copy_from_slice(&value_bytes(&flat(&message)));
    Ok(())
}

fn try_write(profile: &[u8], value: &[u8], message: &mut [u8]) -> Result<usize, Refusal> {
    let profile = read_profile(profile).ok_or(Number(1))?;
    let value = read_value(value).ok_or(Number(22))?;
    write(&profile, &value, message)
}

/// # Safety
/// Each pointer leads to as many bytes as the length after it says, or that length is 0. What
/// is written to overlaps nothing else.
#[no_mangle]
pub unsafe extern "C" fn model_cad_read(
    profile: *const u8,
    profile_len: usize,
    message: *const u8,
    message_len: usize,
    bits: usize,
    value: *mut u8,
    value_len: usize,
) -> u32 {
    cad_read(
        lent(profile, profile_len),
        lent(message, message_len),
        bits,
        lent_to_write(value, value_len),
    )
}

/// # Safety
/// As for `model_cad_read`, and `position` and `element` lead to a number each.
#[no_mangle]
pub unsafe extern "C" fn model_cad_read_at(
    profile: *const u8,
    profile_len: usize,
    message: *const u8,
    message_len: usize,
    bits: usize,
    value: *mut u8,
    value_len: usize,
    position: *mut u32,
    element: *mut u32,
) -> u32 {
    cad_read_at(
        lent(profile, profile_len),
        lent(message, message_len),
        bits,
        lent_to_write(value, value_len),
        &mut *position,
        &mut *element,
    )
}

/// # Safety
/// As for `model_cad_read`, and `bits` leads to a number.
#[no_mangle]
pub unsafe extern "C" fn model_cad_write(
    profile: *const u8,
    profile_len: usize,
    value: *const u8,
    value_len: usize,
    message: *mut u8,
    message_len: usize,
    bits: *mut usize,
) -> u32 {
    cad_write(
        lent(profile, profile_len),
        lent(value, value_len),
        lent_to_write(message, message_len),
        &mut *bits,
    )
}

/// A C program may lend a null pointer with the length 0.
unsafe fn lent<'a>(bytes: *const u8, length: usize) -> &'a [u8] {
    if length == 0 {
        &[]
    } else {
        slice::from_raw_parts(bytes, length)
    }
}

unsafe fn lent_to_write<'a>(bytes: *mut u8, length: usize) -> &'a mut [u8] {
    if length == 0 {
        &mut []
    } else {
        slice::from_raw_parts_mut(bytes, length)
    }
}
