//! The bytes in which a profile and a value cross to a C program, and back; numbers are
//! big-endian. A profile has 41 bytes, a value 471; no other bytes are one.

use crate::message::Address;
use crate::profile::{Meaning, Post, Profile, MOST_POSTS};
use crate::value::{FlatAreas, FlatGroup, Value, MOST_ADDRESSES};

pub const PROFILE_BYTES: usize = 41;
pub const VALUE_BYTES: usize = 471;

/// What request (iv) appended to a value's 228 bytes: the marks of REQUEST's second to seventh
/// option, its MNI, and two areas and two services, each the calling's first.
const FURTHER: usize = 228;
const MNI: usize = 234;
const AREAS: usize = 237;
const SERVICES: usize = 239;

/// What request (viii) appended: to a profile's 39 bytes the two failure reasons, to a value's 241
/// activation type, interception type, two groups of addresses, and one of areas.
const FAILURES: usize = 39;
const ACTIVATION: usize = 241;
const INTERCEPTION: usize = 242;
const SOURCES: usize = 243;
const DESTINATIONS: usize = 349;
const RESTRICTED: usize = 455;

const NOBODY: u8 = 16;
const FIRST_AND_LAST: u8 = 17;

/// The profile that the bytes lay out; nothing if they lay out none that keeps the rules.
pub fn read_profile(bytes: &[u8]) -> Option<Profile> {
    if bytes.len() != PROFILE_BYTES {
        return None;
    }
    let mut meanings = [Meaning::Reserved; 16];
    for (range, meaning) in meanings.iter_mut().enumerate() {
        *meaning = read_meaning(bytes[6 + range])?;
    }
    let mut posts = Vec::new();
    for post in 0..MOST_POSTS {
        let (reserved, ceiling) = (bytes[23 + 2 * post], bytes[24 + 2 * post]);
        if post < usize::from(bytes[22]) {
            posts.push(Post {
                reserved: u32::from(reserved),
                ceiling: u32::from(ceiling),
            });
        } else if reserved != 0 || ceiling != 0 {
            return None;
        }
    }
    if posts.len() != usize::from(bytes[22]) {
        return None;
    }
    let profile = Profile {
        ss_type: u32::from(bytes[0]),
        home_extension: number(&bytes[1..4]),
        meanings,
        reason_no_record: u32::from(bytes[4]),
        reason_other_post: u32::from(bytes[5]),
        posts,
        failure_no_record: u32::from(bytes[FAILURES]),
        failure_other_post: u32::from(bytes[FAILURES + 1]),
    };
    if profile.keeps_rules() {
        Some(profile)
    } else {
        None
    }
}

/// The bytes of a profile that keeps the rules.
pub fn profile_bytes(profile: &Profile) -> Vec<u8> {
    let mut bytes = Vec::new();
    put(&mut bytes, profile.ss_type, 1);
    put(&mut bytes, profile.home_extension, 3);
    put(&mut bytes, profile.reason_no_record, 1);
    put(&mut bytes, profile.reason_other_post, 1);
    for meaning in profile.meanings {
        bytes.push(match meaning {
            Meaning::Reserved => 0,
            Meaning::List(count) => count,
            Meaning::NoIdentity => NOBODY,
            Meaning::FirstAndLast => FIRST_AND_LAST,
        });
    }
    put(&mut bytes, profile.posts.len() as u32, 1);
    for post in &profile.posts {
        put(&mut bytes, post.reserved, 1);
        put(&mut bytes, post.ceiling, 1);
    }
    bytes.resize(FAILURES, 0);
    put(&mut bytes, profile.failure_no_record, 1);
    put(&mut bytes, profile.failure_other_post, 1);
    bytes
}

pub fn read_meaning(code: u8) -> Option<Meaning> {
    match code {
        0 => Some(Meaning::Reserved),
        1..=15 => Some(Meaning::List(code)),
        NOBODY => Some(Meaning::NoIdentity),
        FIRST_AND_LAST => Some(Meaning::FirstAndLast),
        _ => None,
    }
}

/// The value that the bytes lay out, valid or not; nothing if they lay out none.
pub fn read_value(bytes: &[u8]) -> Option<Value> {
    if bytes.len() != VALUE_BYTES {
        return None;
    }
    Some(Value {
        pdu: u32::from(bytes[0]),
        users: read_group(&bytes[1..107]),
        masked: read_flag(bytes[107])?,
        mask: read_mask(&bytes[108..116]),
        result: u32::from(bytes[116]),
        reason: u32::from(bytes[117]),
        cause: u32::from(bytes[118]),
        identifier: number(&bytes[119..121]),
        option: read_flag(bytes[121])?,
        dispatchers: read_group(&bytes[122..228]),
        further: read_flags(&bytes[FURTHER..MNI])?,
        mni: number(&bytes[MNI..AREAS]),
        areas: [AREAS, AREAS + 1].map(|at| u32::from(bytes[at])),
        services: [SERVICES, SERVICES + 1].map(|at| u32::from(bytes[at])),
        activation: u32::from(bytes[ACTIVATION]),
        interception: u32::from(bytes[INTERCEPTION]),
        sources: read_group(&bytes[SOURCES..DESTINATIONS]),
        destinations: read_group(&bytes[DESTINATIONS..RESTRICTED]),
        restricted: read_areas(&bytes[RESTRICTED..]),
    })
}

/// The bytes of a valid value.
pub fn value_bytes(value: &Value) -> Vec<u8> {
    let mut bytes = Vec::new();
    put(&mut bytes, value.pdu, 1);
    put_group(&mut bytes, &value.users);
    put(&mut bytes, u32::from(value.masked), 1);
    put_mask(&mut bytes, value.mask);
    put(&mut bytes, value.result, 1);
    put(&mut bytes, value.reason, 1);
    put(&mut bytes, value.cause, 1);
    put(&mut bytes, value.identifier, 2);
    put(&mut bytes, u32::from(value.option), 1);
    put_group(&mut bytes, &value.dispatchers);
    for mark in value.further {
        put(&mut bytes, u32::from(mark), 1);
    }
    put(&mut bytes, value.mni, 3);
    for number in value.areas.iter().chain(&value.services) {
        put(&mut bytes, *number, 1);
    }
    put(&mut bytes, value.activation, 1);
    put(&mut bytes, value.interception, 1);
    put_group(&mut bytes, &value.sources);
    put_group(&mut bytes, &value.destinations);
    put(&mut bytes, value.restricted.range, 1);
    for area in value.restricted.areas {
        put(&mut bytes, area, 1);
    }
    bytes
}

fn read_flag(byte: u8) -> Option<bool> {
    match byte {
        0 => Some(false),
        1 => Some(true),
        _ => None,
    }
}

fn read_flags(bytes: &[u8]) -> Option<[bool; 6]> {
    let mut flags = [false; 6];
    for (flag, byte) in flags.iter_mut().zip(bytes) {
        *flag = read_flag(*byte)?;
    }
    Some(flags)
}

/// A range number and fifteen addresses of 7 bytes.
fn read_group(bytes: &[u8]) -> FlatGroup {
    let mut group = FlatGroup {
        range: u32::from(bytes[0]),
        ..FlatGroup::default()
    };
    for place in 0..MOST_ADDRESSES {
        let seven = &bytes[1 + 7 * place..8 + 7 * place];
        group.addresses[place] = Address {
            kind: u32::from(seven[0]),
            ssi: number(&seven[1..4]),
            extension: number(&seven[4..7]),
        };
    }
    group
}

fn put_group(bytes: &mut Vec<u8>, group: &FlatGroup) {
    put(bytes, group.range, 1);
    for address in &group.addresses {
        put(bytes, address.kind, 1);
        put(bytes, address.ssi, 3);
        put(bytes, address.extension, 3);
    }
}

/// A range number and fifteen areas of a byte.
fn read_areas(bytes: &[u8]) -> FlatAreas {
    let mut areas = FlatAreas {
        range: u32::from(bytes[0]),
        ..FlatAreas::default()
    };
    for (area, byte) in areas.areas.iter_mut().zip(&bytes[1..]) {
        *area = u32::from(*byte);
    }
    areas
}

/// Identity i is bit 7 - i mod 8 of byte i div 8.
fn read_mask(bytes: &[u8]) -> u64 {
    let mut mask = 0;
    for identity in 0..64 {
        let bit = (bytes[identity / 8] >> (7 - identity % 8)) & 1;
        mask |= u64::from(bit) << (63 - identity);
    }
    mask
}

fn put_mask(bytes: &mut Vec<u8>, mask: u64) {
    let mut eight = [0; 8];
    for identity in 0..64 {
        let bit = (mask >> (63 - identity)) & 1;
        eight[identity / 8] |= (bit as u8) << (7 - identity % 8);
    }
    bytes.extend(eight);
}

fn number(bytes: &[u8]) -> u32 {
    let mut number = 0;
    for byte in bytes {
        number = 256 * number + u32::from(*byte);
    }
    number
}

fn put(bytes: &mut Vec<u8>, number: u32, width: usize) {
    for place in (0..width).rev() {
        bytes.push((number >> (8 * place)) as u8);
    }
}
