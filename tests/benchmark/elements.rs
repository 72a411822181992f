//! The elements of each message in their order, each at its place in the value.

use super::{Bits, Refusal, Value, FIRST_AND_LAST, KIND, MASKED, NOBODY};

/// Where the value has what; the mask is a reader's own.
const USERS: usize = 1;
const RESULT: usize = 116;
const REASON: usize = 117;
const CAUSE: usize = 118;
const IDENTIFIER: usize = 119;
const OPTION: usize = 121;
const DISPATCHERS: usize = 122;
/// REQUEST's marks, from the second option's on, and INTERROGATE ACK's.
const MARKS: usize = 228;
const CALLING_SERVICE: usize = 239;
const CALLED_SERVICE: usize = 240;
const ACTIVATION: usize = 241;
const INTERCEPTION: usize = 242;
const SOURCES: usize = 243;
const DESTINATIONS: usize = 349;
const AREAS: usize = 455;

/// REQUEST's options that are numbers: the mark's place, the number's, its bits and its bytes.
const NUMBERS: [(usize, usize, usize, usize); 5] = [
    (MARKS + 1, 234, 24, 3),
    (MARKS + 2, 237, 4, 1),
    (MARKS + 3, 238, 4, 1),
    (MARKS + 4, CALLING_SERVICE, 2, 1),
    (MARKS + 5, CALLED_SERVICE, 2, 1),
];

/// A destination may be external elsewhere.
const EXTERNAL: Refusal = 27;

#[inline(always)]
pub fn read_elements<'a, B: Bits<'a>>(
    profile: &[u8],
    rest: &mut B,
    value: &mut Value,
) -> Result<(), Refusal> {
    // neither field is judged before both are there
    let ss_type = rest.take(6)?;
    let pdu_type = rest.take(5)?;
    if ss_type != u32::from(profile[0]) {
        return Err(5);
    }
    value[0] = pdu_type as u8;
    match pdu_type {
        0 | 1 | 19.. => Err(6),
        2 => {
            read_users(profile, rest, value)?;
            if read_option(rest, value)? {
                read_group(profile, rest, value, DISPATCHERS, KIND)?;
            }
            Ok(())
        }
        3 | 5 => {
            let identities = read_users(profile, rest, value)?;
            read_mask(rest, identities, value)?;
            if rest.take(1)? == 1 {
                value[RESULT] = 1;
            } else {
                value[REASON] = rest.take(7)? as u8;
            }
            Ok(())
        }
        4 => {
            read_users(profile, rest, value)?;
            Ok(())
        }
        8 => {
            rest.read_address(value, USERS + 1, KIND)?;
            Ok(())
        }
        9 => {
            let identities = read_users(profile, rest, value)?;
            read_mask(rest, identities, value)?;
            if rest.take(1)? == 1 {
                value[RESULT] = 1;
                value[ACTIVATION] = rest.take(1)? as u8;
                value[INTERCEPTION] = rest.take(1)? as u8;
                value[CALLED_SERVICE] = rest.take(2)? as u8;
                value[CALLING_SERVICE] = rest.take(2)? as u8;
            } else {
                value[REASON] = rest.take(3)? as u8;
            }
            read_groups(profile, rest, value)
        }
        10 | 16 | 18 => {
            value[CAUSE] = rest.take(5)? as u8;
            if read_option(rest, value)? {
                rest.read_address(value, DISPATCHERS + 1, KIND)?;
            }
            Ok(())
        }
        11 => {
            put(value, IDENTIFIER, rest.take(14)?, 2);
            value[CAUSE] = rest.take(5)? as u8;
            read_request_options(rest, value)
        }
        12 | 14 | 15 => {
            put(value, IDENTIFIER, rest.take(14)?, 2);
            Ok(())
        }
        13 => Ok(()),
        17 => {
            put(value, IDENTIFIER, rest.take(14)?, 2);
            value[CAUSE] = rest.take(5)? as u8;
            Ok(())
        }
        _ => Err(7),
    }
}

fn read_mask<'a, B: Bits<'a>>(
    rest: &mut B,
    identities: usize,
    value: &mut Value,
) -> Result<(), Refusal> {
    if rest.take(1)? == 1 {
        value[MASKED] = 1;
        rest.read_mask(identities, value)?;
    }
    Ok(())
}

/// The O-bit, and after an O-bit of 1 the one P-bit, which has to be 1.
#[inline(always)]
fn read_option<'a, B: Bits<'a>>(rest: &mut B, value: &mut Value) -> Result<bool, Refusal> {
    if rest.take(1)? == 0 {
        return Ok(false);
    }
    if rest.take(1)? == 0 {
        return Err(12);
    }
    value[OPTION] = 1;
    Ok(true)
}

/// The O-bit, and after an O-bit of 1 seven options, each behind its P-bit; one has to be there.
fn read_request_options<'a, B: Bits<'a>>(rest: &mut B, value: &mut Value) -> Result<(), Refusal> {
    if rest.take(1)? == 0 {
        return Ok(());
    }
    let mut there = 0;
    for (mark, address) in [(OPTION, USERS + 1), (MARKS, USERS + 8)] {
        if rest.take(1)? == 1 {
            there += 1;
            value[mark] = 1;
            rest.read_address(value, address, KIND)?;
        }
    }
    for (mark, at, width, bytes) in NUMBERS {
        if rest.take(1)? == 1 {
            there += 1;
            value[mark] = 1;
            put(value, at, rest.take(width)?, bytes);
        }
    }
    if there == 0 {
        return Err(12);
    }
    Ok(())
}

/// The O-bit, and after an O-bit of 1 INTERROGATE ACK's four groups, each behind its P-bit; one has
/// to be there.
fn read_groups<'a, B: Bits<'a>>(
    profile: &[u8],
    rest: &mut B,
    value: &mut Value,
) -> Result<(), Refusal> {
    if rest.take(1)? == 0 {
        return Ok(());
    }
    let mut there = 0;
    for (mark, at, external) in [
        (OPTION, DISPATCHERS, KIND),
        (MARKS, SOURCES, KIND),
        (MARKS + 1, DESTINATIONS, EXTERNAL),
    ] {
        if rest.take(1)? == 1 {
            there += 1;
            value[mark] = 1;
            read_group(profile, rest, value, at, external)?;
        }
    }
    if rest.take(1)? == 1 {
        there += 1;
        value[MARKS + 2] = 1;
        read_areas(profile, rest, value)?;
    }
    if there == 0 {
        return Err(12);
    }
    Ok(())
}

/// A range number and the areas that it announces.
fn read_areas<'a, B: Bits<'a>>(
    profile: &[u8],
    rest: &mut B,
    value: &mut Value,
) -> Result<(), Refusal> {
    let range = rest.take(4)?;
    value[AREAS] = range as u8;
    let meaning = profile[6 + range as usize];
    let count = match meaning {
        0 => return Err(9),
        NOBODY => 0,
        FIRST_AND_LAST => 2,
        count => usize::from(count),
    };
    for place in 1..=count {
        value[AREAS + place] = rest.take(4)? as u8;
    }
    if meaning == FIRST_AND_LAST && value[AREAS + 1] > value[AREAS + 2] {
        return Err(11);
    }
    Ok(())
}

/// Users may not be nobody.
#[inline(always)]
fn read_users<'a, B: Bits<'a>>(
    profile: &[u8],
    rest: &mut B,
    value: &mut Value,
) -> Result<usize, Refusal> {
    let identities = read_group(profile, rest, value, USERS, KIND)?;
    if identities == 0 {
        return Err(9);
    }
    Ok(identities)
}

/// A range number and the addresses that it announces; how many identities they are.
#[inline(always)]
fn read_group<'a, B: Bits<'a>>(
    profile: &[u8],
    rest: &mut B,
    value: &mut Value,
    at: usize,
    external: Refusal,
) -> Result<usize, Refusal> {
    let range = rest.take(4)?;
    value[at] = range as u8;
    match profile[6 + range as usize] {
        0 => Err(9),
        NOBODY => Ok(0),
        FIRST_AND_LAST => {
            let first = rest.read_address(value, at + 1, external)?;
            let last = rest.read_address(value, at + 8, external)?;
            let same = first.kind == last.kind && first.extension == last.extension;
            if !same || first.ssi > last.ssi || last.ssi - first.ssi > 63 {
                return Err(11);
            }
            Ok((last.ssi - first.ssi + 1) as usize)
        }
        count => {
            rest.read_list(usize::from(count), value, at + 1, external)?;
            Ok(usize::from(count))
        }
    }
}

pub fn put(value: &mut Value, at: usize, number: u32, width: usize) {
    for place in 0..width {
        value[at + place] = (number >> (8 * (width - 1 - place))) as u8;
    }
}
