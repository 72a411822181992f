//! What the two plain readers have in common: the value's 471 bytes, the profile's check, the
//! elements of each message in their order, the way in from C. They read and check all that
//! `cad_read` does, with the same refusals in the same order, without allocation, and are what its
//! speed is measured by. How bits are taken is a reader's own.

mod elements;
mod plain;
mod window;

use elements::read_elements;
use std::slice;

pub type Refusal = u32;

const PROFILE_BYTES: usize = 41;
pub const VALUE_BYTES: usize = 471;
pub type Value = [u8; VALUE_BYTES];

pub const ADDRESS_BYTES: usize = 7;

/// Where the value has whether there is a mask, and the mask.
const MASKED: usize = 107;
pub const MASK: usize = MASKED + 1;

/// What a range means that is no list.
const NOBODY: u8 = 16;
const FIRST_AND_LAST: u8 = 17;

/// What an address of kind 0 is refused with, and one of kind 3 that is no destination.
pub const KIND: Refusal = 10;

/// The bits of a message that are not yet taken.
pub trait Bits<'a> {
    fn of(message: &'a [u8], length: usize) -> Self;

    /// How many there are.
    fn left(&self) -> usize;

    /// The next `width` of them, 1 to 32; 4 where there are fewer.
    fn take(&mut self, width: usize) -> Result<u32, Refusal>;

    /// A bit for each identity into the value's mask.
    fn read_mask(&mut self, identities: usize, value: &mut Value) -> Result<(), Refusal>;

    /// An address into the value's bytes from `at` on; kind 3 is refused with `external`.
    fn read_address(
        &mut self,
        value: &mut Value,
        at: usize,
        external: Refusal,
    ) -> Result<Address, Refusal>;

    /// As many addresses, from `at` on.
    fn read_list(
        &mut self,
        count: usize,
        value: &mut Value,
        at: usize,
        external: Refusal,
    ) -> Result<(), Refusal> {
        for place in 0..count {
            self.read_address(value, at + ADDRESS_BYTES * place, external)?;
        }
        Ok(())
    }
}

pub struct Address {
    pub kind: u32,
    pub ssi: u32,
    pub extension: u32,
}

fn read<'a, B: Bits<'a>>(
    profile: &[u8],
    message: &'a [u8],
    bits: usize,
    area: &mut [u8],
) -> Result<(), Refusal> {
    if !keeps_rules(profile) {
        return Err(1);
    }
    if bits == 0 || bits > 4096 || bits > 8 * message.len() {
        return Err(3);
    }
    let mut value = [0; VALUE_BYTES];
    let mut rest = B::of(message, bits);
    read_elements(profile, &mut rest, &mut value)?;
    if rest.left() > 0 {
        return Err(13);
    }
    if area.len() < VALUE_BYTES {
        return Err(14);
    }
    area[..VALUE_BYTES].copy_from_slice(&value);
    Ok(())
}

#[inline(always)]
fn keeps_rules(profile: &[u8]) -> bool {
    if profile.len() != PROFILE_BYTES || profile[0] > 63 || profile[4] > 127 || profile[5] > 127 {
        return false;
    }
    if profile[39] > 7 || profile[40] > 7 {
        return false;
    }
    let posts = usize::from(profile[22]);
    if posts == 0
        || posts > 8
        || profile[6..22]
            .iter()
            .any(|meaning| *meaning > FIRST_AND_LAST)
    {
        return false;
    }
    let mut reserved_together = 0;
    for (post, share) in profile[23..39].chunks(2).enumerate() {
        let (reserved, ceiling) = (share[0], share[1]);
        if post >= posts {
            if reserved != 0 || ceiling != 0 {
                return false;
            }
        } else if ceiling == 0 || ceiling > 32 || reserved > ceiling {
            return false;
        }
        reserved_together += u32::from(reserved);
    }
    reserved_together <= 32
}

/// A reader's function for C.
macro_rules! for_c {
    ($name:ident, $bits:ty) => {
        /// # Safety
        /// As for `cad_read`: each pointer leads to as many bytes as the length after it says, or
        /// that length is 0.
        #[no_mangle]
        pub unsafe extern "C" fn $name(
            profile: *const u8,
            profile_len: usize,
            message: *const u8,
            message_len: usize,
            bits: usize,
            value: *mut u8,
            value_len: usize,
        ) -> u32 {
            let none: &mut [u8] = &mut [];
            let area = match value_len {
                0 => none,
                _ => slice::from_raw_parts_mut(value, value_len),
            };
            let profile = lent(profile, profile_len);
            match read::<$bits>(profile, lent(message, message_len), bits, area) {
                Ok(()) => 0,
                Err(refusal) => refusal,
            }
        }
    };
}
for_c!(plain_cad_read, plain::Bits);
for_c!(window_cad_read, window::Bits);

/// A C program may lend a null pointer with the length 0.
unsafe fn lent<'a>(bytes: *const u8, length: usize) -> &'a [u8] {
    match length {
        0 => &[],
        _ => slice::from_raw_parts(bytes, length),
    }
}
