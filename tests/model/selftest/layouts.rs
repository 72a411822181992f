//! The byte layouts of profile and value, and reading and writing through them.

use super::Report;
use crate::dice::Dice;
use crate::draw;
use crate::hex::read_hex;
use crate::interface::{cad_read, cad_write};
use crate::layout::{profile_bytes, read_profile, read_value, value_bytes};
use crate::profile::sample;
use crate::table::rows;
use crate::value::flat;
use std::io;

const RANDOM_VALUES: usize = 5_000;

/// The sample profile: header, sixteen meanings, two posts, six that aren't there, two reasons.
const SAMPLE: &[u8] = b"090000000102\
    10010203000000000000000000000011\
    02021E0408000000000000000000000000\
    0102";

/// Where the fields of some rows' values lie, each with the bytes that have to stand there.
const FIELDS: [(usize, usize, &[u8]); 51] = [
    (4, 0, b"02"),
    (4, 1, b"03"),
    (4, 2, b"02FFFFFFFFFFFF"),
    (4, 9, b"01000000000000"),
    (4, 16, b"02000001000000"),
    (4, 23, b"00000000000000"),
    (4, 121, b"01"),
    (4, 122, b"0F"),
    (4, 123, b"02000064000003"),
    (4, 130, b"020000A3000003"),
    (4, 137, b"00000000000000"),
    (5, 107, b"01C000000000000000010000"),
    (6, 107, b"012000000000000000000100"),
    (9, 107, b"01AAAAAAAAAAAAAAAA000200"),
    (10, 1, b"00010003E9000000"),
    (13, 118, b"0200000100"),
    (13, 123, b"01000001000000"),
    (16, 118, b"003FFF0000"),
    (18, 221, b"00000000000000"),
    (18, 228, b"00000000000000000000000000"),
    (40, 0, b"0B00"),
    (40, 2, b"010003E9000000"),
    (40, 9, b"020003EC000005"),
    (40, 118, b"0200050100"),
    (40, 228, b"01010101010100000501020102"),
    (41, 118, b"0000050000"),
    (41, 228, b"00000000000100000000000003"),
    (42, 228, b"010101010101FFFFFF0F0F0303"),
    (44, 121, b"00"),
    (44, 228, b"00010101010100000000000000"),
    (47, 118, b"0200050000"),
    (49, 118, b"0200000100010003E9000000"),
    (65, 0, b"040F010003E9000000010003EC000000"),
    (65, 107, b"000000000000000000000000000000"),
    (67, 0, b"0402010003E90000000200000700000500"),
    (71, 0, b"050F010003E9000000010003EC000000"),
    (71, 107, b"01C000000000000000010000"),
    (72, 107, b"012000000000000000000100"),
    (74, 107, b"000000000000000000010000"),
    (77, 107, b"010000000000000000000000"),
    (109, 0, b"0901010003E9000000"),
    (109, 116, b"0100000000000000"),
    (109, 239, b"00000100000000"),
    (111, 116, b"0001000000000000"),
    (112, 228, b"00000100000000000000000000000000"),
    (112, 455, b"0F030500000000000000000000000000"),
    (113, 121, b"0101010003EC00000000"),
    (113, 228, b"01010100000000000000000300"),
    (113, 241, b"010002020003E9000005010003EC000000000000"),
    (113, 348, b"000F010003E9000000010003EC00000000"),
    (113, 454, b"0003010F00000000000000000000000000"),
];

pub fn check(report: &mut Report) -> io::Result<()> {
    sample_profile(report)?;
    profile_bytes_changed(report)?;
    fields_of_values(report)?;
    values_to_and_from(report)?;
    orders(report)?;
    areas(report)
}

fn sample_profile(report: &mut Report) -> io::Result<()> {
    let bytes = read_hex(SAMPLE).unwrap_or_default();
    let good = profile_bytes(&sample()) == bytes && read_profile(&bytes) == Some(sample());
    report.check("profile: the bytes of the sample profile", good)
}

/// Every byte of the sample's set to every number: a profile is read only from its own bytes.
fn profile_bytes_changed(report: &mut Report) -> io::Result<()> {
    let bytes = profile_bytes(&sample());
    let (mut good, mut profiles) = (true, 0);
    for place in 0..bytes.len() {
        for byte in 0..=255 {
            let mut changed = bytes.clone();
            changed[place] = byte;
            if let Some(profile) = read_profile(&changed) {
                profiles += 1;
                good &= profile.keeps_rules() && profile_bytes(&profile) == changed;
            }
        }
    }
    // SS 64, home 3 x 256, U and N 128 each, meanings 16 x 18, posts 1, reserved 4: 0 to 28 and
    // 0 to 8, ceilings 2 to 32 and 4 to 32, rows of no post 12 x 1, failure reasons 8 each.
    let expected = 64 + 768 + 256 + 288 + 1 + 29 + 31 + 9 + 29 + 12 + 16;
    let what = format!("profile: {profiles} of 10496 with one byte changed are profiles");
    report.check(&what, good && profiles == expected)?;

    let longer = [&bytes[..], &[0]].concat();
    let good = [38, 39, 40]
        .iter()
        .all(|length| read_profile(&bytes[..*length]).is_none())
        && read_profile(&longer).is_none();
    report.check("profile: 38, 39, 40 and 42 bytes are none", good)
}

fn fields_of_values(report: &mut Report) -> io::Result<()> {
    let rows = rows();
    let mut good = true;
    for (row, place, hex) in FIELDS {
        let expected = read_hex(hex).unwrap_or_default();
        let bytes = value_bytes(&rows[row - 1].value);
        good &= bytes.len() == 471 && bytes[place..place + expected.len()] == expected[..];
    }
    report.check("value: fields of the table's rows at their bytes", good)
}

fn values_to_and_from(report: &mut Report) -> io::Result<()> {
    let mut dice = Dice::new(5);
    let mut good = true;
    for _ in 0..RANDOM_VALUES {
        let profile = draw::profile(&mut dice);
        let value = flat(&draw::message(&mut dice, &profile));
        let (profile, bytes) = (profile_bytes(&profile), value_bytes(&value));
        good &= read_value(&bytes).as_ref() == Some(&value);

        let (mut message, mut bits) = ([0xAA; 512], 0);
        good &= cad_write(&profile, &bytes, &mut message, &mut bits) == 0;
        let mut again = [0x55; 473];
        good &= cad_read(&profile, &message, bits, &mut again) == 0;
        good &= again[..471] == bytes[..] && again[471..] == [0x55; 2];
    }
    let what = format!("{RANDOM_VALUES} random values and profiles through their bytes");
    report.check(&what, good)
}

/// Each call has all the faults that come after its own in the order.
fn orders(report: &mut Report) -> io::Result<()> {
    let profile = profile_bytes(&sample());
    let accepted = value_bytes(&rows()[14].value);
    let mut flagged = accepted.clone();
    flagged[107] = 2;
    let mut optioned = accepted.clone();
    optioned[121] = 2;
    let no_flags = (228..234).all(|place| {
        let mut marked = accepted.clone();
        marked[place] = 2;
        read_value(&marked).is_none()
    });
    let longer = [&accepted[..], &[0]].concat();

    let read = |profile: &[u8], bits| cad_read(profile, &[0x25, 0xA0], bits, &mut []);
    let good = read(&profile[..40], 0) == 1
        && read(&profile, 0) == 3
        && read(&profile, 12) == 13
        && read(&profile, 11) == 14;
    report.check("cad_read: 1, then reading, then 14", good)?;

    let write = |profile: &[u8], value: &[u8]| cad_write(profile, value, &mut [], &mut 0);
    let good = write(&[], &flagged) == 1
        && write(&profile, &flagged) == 22
        && write(&profile, &optioned) == 22
        && write(&profile, &accepted[..470]) == 22
        && write(&profile, &accepted[..241]) == 22
        && write(&profile, &accepted[..228]) == 22
        && write(&profile, &longer) == 22
        && write(&profile, &accepted) == 14;
    report.check("cad_write: 1, then 22, then 14", good)?;
    report.check("value: a mark of REQUEST is 0 or 1", no_flags)
}

fn areas(report: &mut Report) -> io::Result<()> {
    let profile = profile_bytes(&sample());
    let mut short = [0x55; 470];
    let mut good = cad_read(&profile, &[0x25, 0xA0], 11, &mut short) == 14;
    good &= short == [0x55; 470];
    let mut long = [0x55; 471];
    good &= cad_read(&profile, &[0x25, 0xA0], 12, &mut long) == 13;
    good &= long == [0x55; 471];
    report.check("cad_read: a refusal leaves the value area", good)?;

    let accepted = value_bytes(&rows()[14].value);
    let (mut message, mut bits) = ([0xAA; 3], 77);
    let mut good = cad_write(&profile, &accepted, &mut message[..1], &mut bits) == 14;
    good &= cad_write(&profile, &accepted[1..], &mut message, &mut bits) == 22;
    good &= message == [0xAA; 3] && bits == 77;
    good &= cad_write(&profile, &accepted, &mut message, &mut bits) == 0;
    good &= message == [0x25, 0xA0, 0xAA] && bits == 11;
    report.check(
        "cad_write: a refusal leaves the area and the bit length",
        good,
    )
}
