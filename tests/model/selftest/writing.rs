//! Writing, checked against the bytes of document 01's worked cases, and the two round trips.

use super::Report;
use crate::dice::Dice;
use crate::draw;
use crate::hex::read_hex;
use crate::message::{meaning_of, read, Address};
use crate::profile::{sample, Meaning, Profile};
use crate::refusal::Refusal::Number;
use crate::table::rows;
use crate::value::{flat, valid, FlatAreas, FlatGroup, Value};
use crate::write::write;
use std::io;

const RANDOM_VALUES: usize = 20_000;
/// An INTERROGATE ACK with four lists of 15 addresses of kind 2, fifteen areas and a mask, accepted,
/// has 3,119 bits, and none has more.
const MOST_BYTES: usize = 390;

/// Numbers that lie just within or just outside some width.
const EDGES: [u32; 12] = [
    0, 1, 2, 31, 32, 127, 128, 255, 16_383, 16_384, 16_777_215, 16_777_216,
];

/// Row of the table, worked case of document 01, its bit length and its bytes.
const PAPER: [(usize, u32, usize, &[u8]); 8] = [
    (15, 1, 11, b"25A0"),
    (14, 2, 25, b"25800280"),
    (16, 3, 25, b"25FFFF80"),
    (12, 4, 17, b"254000"),
    (17, 5, 17, b"260000"),
    (13, 6, 44, b"2542D0000010"),
    (10, 7, 37, b"2508001F48"),
    (1, 8, 68, b"245E8001F4A0007D80"),
];

/// Row of the table, and the bit length and bytes that were worked out for request (iv). All of
/// row 42's bits but header and spare ones are ones, except the second of each kind's two.
const REQUESTS: [(usize, usize, &[u8]); 11] = [
    (38, 31, b"25600280"),
    (39, 31, b"25600288"),
    (40, 150, b"2560028B4000FA70001F6000002C00001632B8"),
    (41, 40, b"2560028207"),
    (42, 174, b"257FFFFFBFFFFFFFFFFFF7FFFFFFFFFFFFFFFFFFFFFC"),
    (45, 25, b"25C00280"),
    (46, 25, b"25DFFF80"),
    (47, 30, b"26200288"),
    (48, 17, b"264200"),
    (49, 44, b"2642D0003E90"),
    (50, 150, b"2560028B4000FA70001F6000002C00001632B8"),
];

/// The same for request (i).
const DEACTIVATIONS: [(usize, usize, &[u8]); 12] = [
    (65, 67, b"249E8001F4A0007D80"),
    (66, 41, b"24828001F480"),
    (67, 91, b"24848001F4C00000E00000A0"),
    (69, 115, b"249F000020000004C0000FE0000120"),
    (70, 67, b"249E800003A00000E0"),
    (71, 73, b"24BE8001F4A0007D9C80"),
    (72, 80, b"24BE8001F4A0007D9201"),
    (73, 80, b"24BE8001F4A0007D9102"),
    (74, 69, b"24BE8001F4A0007D88"),
    (75, 126, b"24A6800000A0000030000010000021FC"),
    (76, 188, b"24BF000020000004C0000FE000013AAAAAAAAAAAAAAAA020"),
    (79, 67, b"249E8001F4A0007D80"),
];

/// The same for request (viii).
const INTERROGATIONS: [(usize, usize, &[u8]); 17] = [
    (109, 50, b"25228001F4B000"),
    (110, 50, b"25228001F4A000"),
    (111, 47, b"25228001F484"),
    (112, 63, b"25228001F4863E6A"),
    (
        113,
        236,
        b"25228001F4B1E28001F64A0003E90000054000FB3E8001F4A0007D931F00",
    ),
    (114, 50, b"25228001F4BC80"),
    (115, 58, b"25228001F4B06000"),
    (116, 55, b"25228001F49E80"),
    (117, 181, b"25228001F4824EFFFFFFFFFFFF40000020000010000000"),
    (118, 58, b"25228001F4A04400"),
    (119, 66, b"25228001F4B047FFC0"),
    (120, 66, b"25228001F4B047C3C0"),
    (121, 70, b"25228001F4B044E400"),
    (122, 80, b"253E8001F4A0007D9CC0"),
    (123, 77, b"253E8001F4A0007D9020"),
    (
        125,
        236,
        b"25228001F4B1E28001F64A0003E90000054000FB3E8001F4A0007D931F00",
    ),
    (127, 47, b"25228001F484"),
];

pub fn check(report: &mut Report) -> io::Result<()> {
    rows_of_the_paper(report)?;
    rows_refused(report)?;
    refusal_1(report)?;
    values_written_and_read(report)?;
    values_changed(report)
}

fn rows_of_the_paper(report: &mut Report) -> io::Result<()> {
    for (row, case, length, hex) in PAPER {
        let what = format!("row {row}: the bytes of case {case}, {length} bits");
        report.check(&what, written_so(row, length, hex))?;
    }
    for (row, length, hex) in REQUESTS {
        let what = format!("row {row}: the bytes of request (iv), {length} bits");
        report.check(&what, written_so(row, length, hex))?;
    }
    for (row, length, hex) in DEACTIVATIONS {
        let what = format!("row {row}: the bytes of request (i), {length} bits");
        report.check(&what, written_so(row, length, hex))?;
    }
    for (row, length, hex) in INTERROGATIONS {
        let what = format!("row {row}: the bytes of request (viii), {length} bits");
        report.check(&what, written_so(row, length, hex))?;
    }
    Ok(())
}

/// Whether the row's value is written as these bytes, and no byte more.
fn written_so(row: usize, length: usize, hex: &[u8]) -> bool {
    let bytes = read_hex(hex).unwrap_or_default();
    let mut area = [0xAA; 48];
    let written = write(&sample(), &rows()[row - 1].value, &mut area);
    let rest_stays = area[bytes.len()..].iter().all(|byte| *byte == 0xAA);
    written == Ok(length) && area[..bytes.len()] == bytes[..] && rest_stays
}

fn rows_refused(report: &mut Report) -> io::Result<()> {
    for (before, row) in rows().iter().enumerate() {
        let expected = match before + 1 {
            20 | 22 | 23 | 51 | 80 | 82 | 126 | 128 => 14,
            24..=37 | 52..=64 | 83..=108 | 129..=155 => 22,
            _ => continue,
        };
        let mut area = vec![0xAA; row.area];
        let refused = write(&sample(), &row.value, &mut area) == Err(Number(expected));
        let good = refused && area.iter().all(|byte| *byte == 0xAA);
        let what = format!("row {}: refused {expected}, area as it stood", before + 1);
        report.check(&what, good)?;
    }
    Ok(())
}

/// 1 before 22 before 14, each with all that follow it true as well.
fn refusal_1(report: &mut Report) -> io::Result<()> {
    let mut broken = sample();
    broken.posts.clear();
    let not_valid = Value::default();
    let good = write(&broken, &not_valid, &mut []) == Err(Number(1))
        && write(&sample(), &not_valid, &mut []) == Err(Number(22))
        && write(&sample(), &rows()[14].value, &mut []) == Err(Number(14));
    report.check("writing: 1 before 22 before 14", good)
}

fn values_written_and_read(report: &mut Report) -> io::Result<()> {
    let mut dice = Dice::new(3);
    let (mut back, mut touched, mut short) = (true, true, true);
    for _ in 0..RANDOM_VALUES {
        let profile = draw::profile(&mut dice);
        let value = flat(&draw::message(&mut dice, &profile));
        back &= valid(&profile, &value);

        let mut area = dice.bytes(MOST_BYTES + 10);
        let before = area.clone();
        let length = match write(&profile, &value, &mut area) {
            Ok(length) => length,
            Err(_) => {
                back = false;
                continue;
            }
        };
        back &= read(&profile, &area, length).map(|message| flat(&message)) == Ok(value.clone());

        let bytes = (length + 7) / 8;
        let spare = 8 * bytes - length;
        touched &= area[bytes..] == before[bytes..];
        touched &= area[bytes - 1] % (1 << spare) == 0;

        let mut exact = vec![0x55; bytes];
        short &= write(&profile, &value, &mut exact) == Ok(length) && exact == area[..bytes];
        let mut less = before[..bytes - 1].to_vec();
        short &=
            write(&profile, &value, &mut less) == Err(Number(14)) && less == before[..bytes - 1];
    }
    let all = format!("{RANDOM_VALUES} random values under random profiles");
    report.check(&format!("{all}: valid, written and read back"), back)?;
    report.check(
        &format!("{all}: spare bits zero, no later byte touched"),
        touched,
    )?;
    report.check(&format!("{all}: 14 exactly from one byte less"), short)
}

/// A valid value with one field changed is written only if it is read back as it is, and
/// only then is it called valid.
fn values_changed(report: &mut Report) -> io::Result<()> {
    let mut dice = Dice::new(4);
    let (mut good, mut written, mut refused) = (true, 0, 0);
    for _ in 0..RANDOM_VALUES {
        let profile = draw::profile(&mut dice);
        let mut value = flat(&draw::message(&mut dice, &profile));
        change(&mut dice, &mut value);
        let mut area = [0xAA; MOST_BYTES];
        match write(&profile, &value, &mut area) {
            Ok(length) => {
                written += 1;
                let back = read(&profile, &area, length).map(|message| flat(&message));
                good &= valid(&profile, &value) && fits_every_rule(&profile, &value);
                good &= back == Ok(value);
            }
            Err(refusal) => {
                refused += 1;
                good &=
                    refusal == Number(22) && !valid(&profile, &value) && area == [0xAA; MOST_BYTES];
                good &= !fits_every_rule(&profile, &value);
            }
        }
    }
    let all = format!("{written} changed values written and {refused} refused with 22");
    report.check(&all, good && written > 1000 && refused > 1000)
}

/// One field set to a number from a few that lie on an edge.
fn change(dice: &mut Dice, value: &mut Value) {
    let edge = dice.pick(&EDGES);
    let group = match dice.below(4) {
        0 => &mut value.users,
        1 => &mut value.sources,
        2 => &mut value.destinations,
        _ => &mut value.dispatchers,
    };
    let address = &mut group.addresses[match dice.below(2) {
        0 => dice.below(3),
        _ => dice.below(15),
    }];
    match dice.below(22) {
        0 => value.pdu = dice.number(5),
        1 => group.range = dice.pick(&[0, 1, 7, 15, 16, 255]),
        2 => address.kind = dice.pick(&[0, 1, 2, 3, 4, 255]),
        3 => address.ssi = edge,
        4 => address.extension = edge,
        5 => value.masked = !value.masked,
        6 => value.mask ^= 1 << dice.below(64),
        7 => value.mask = 0,
        8 => value.result = edge,
        9 => value.reason = edge,
        10 => value.cause = edge,
        11 => value.identifier = edge,
        12 => value.option = !value.option,
        13 => value.mni = edge,
        14 => value.areas[dice.below(2)] = dice.pick(&[0, 1, 15, 16, 255]),
        15 => value.services[dice.below(2)] = dice.pick(&[0, 1, 3, 4, 255]),
        16 => value.activation = dice.pick(&[0, 1, 2, 255]),
        17 => value.interception = dice.pick(&[0, 1, 2, 255]),
        18 => value.restricted.range = dice.pick(&[0, 1, 7, 15, 16, 255]),
        19 => {
            let place = match dice.below(2) {
                0 => dice.below(2),
                _ => dice.below(15),
            };
            value.restricted.areas[place] = dice.pick(&[0, 1, 7, 15, 16, 255]);
        }
        _ => {
            let mark = &mut value.further[dice.below(6)];
            *mark = !*mark;
        }
    }
}

/// Validity said a second time, as document 01's sentence has it: type, widths, 9 to 11, zeros.
fn fits_every_rule(profile: &Profile, value: &Value) -> bool {
    let interrogated = value.pdu == 9;
    let group_of_users = (2..=5).contains(&value.pdu) || interrogated;
    let one_user = value.pdu == 8;
    let request = value.pdu == 11;
    let group_of_dispatchers = (value.pdu == 2 || interrogated) && value.option;
    let with_dispatcher = [10, 16, 18].contains(&value.pdu);
    let with_cause = with_dispatcher || request || value.pdu == 17;
    let one_dispatcher = with_dispatcher && value.option;
    let ack = value.pdu == 3 || value.pdu == 5 || interrogated;
    let most_reason = if interrogated { 7 } else { 127 };
    let with_identifier = [11, 12, 14, 15, 17].contains(&value.pdu);

    (group_of_users || one_user || (10..=18).contains(&value.pdu))
        && (request || group_rule(profile, &value.users, group_of_users, one_user))
        && request_rule(value, request)
        && interrogation_rule(profile, value, interrogated)
        && (request || interrogated || value.further == [false; 6] && value.services == [0, 0])
        && group_rule(
            profile,
            &value.dispatchers,
            group_of_dispatchers,
            one_dispatcher,
        )
        && !(group_of_users && meaning_of(profile, value.users.range) == Meaning::NoIdentity)
        && value.result <= u32::from(ack)
        && value.reason
            <= if ack && value.result == 0 {
                most_reason
            } else {
                0
            }
        && (!value.masked || ack)
        && mask_rule(profile, value)
        && value.cause <= if with_cause { 31 } else { 0 }
        && value.identifier <= if with_identifier { 16_383 } else { 0 }
        && (!value.option || value.pdu == 2 || with_dispatcher || request || interrogated)
}

/// The rule of REQUEST's options; its addresses stand among the users. MNI and two areas are for no
/// other message.
fn request_rule(value: &Value, request: bool) -> bool {
    if !request {
        return value.mni == 0 && value.areas == [0, 0];
    }
    let [called, mni, calling_area, called_area, calling_service, called_service] = value.further;
    let fits = |there: bool, number: u32, most: u32| number <= if there { most } else { 0 };
    let address = |there: bool, address: &Address| {
        if there {
            address_rule(address)
        } else {
            *address == Address::default()
        }
    };
    let users = &value.users;
    users.range == 0
        && address(value.option, &users.addresses[0])
        && address(called, &users.addresses[1])
        && users.addresses[2..].iter().all(|rest| address(false, rest))
        && fits(mni, value.mni, 0xFF_FFFF)
        && fits(calling_area, value.areas[0], 15)
        && fits(called_area, value.areas[1], 15)
        && fits(calling_service, value.services[0], 3)
        && fits(called_service, value.services[1], 3)
}

/// The rule of what INTERROGATE ACK has beside users, mask, result, reason and dispatchers.
fn interrogation_rule(profile: &Profile, value: &Value, interrogated: bool) -> bool {
    let [sources, destinations, areas, rest @ ..] = value.further;
    let there = |mark: bool| interrogated && mark;
    let most = |number: u32| match interrogated && value.result == 1 {
        true => number,
        false => 0,
    };
    value.activation <= most(1)
        && value.interception <= most(1)
        && (!interrogated || value.services.iter().all(|service| *service <= most(3)))
        && (!interrogated || rest == [false; 3])
        && group_rule(profile, &value.sources, there(sources), false)
        && group_rule(profile, &value.destinations, there(destinations), false)
        && area_rule(profile, &value.restricted, there(areas))
}

fn area_rule(profile: &Profile, group: &FlatAreas, there: bool) -> bool {
    if group.range > if there { 15 } else { 0 } {
        return false;
    }
    let count = match meaning_of(profile, group.range) {
        _ if !there => 0,
        Meaning::Reserved => return false,
        Meaning::NoIdentity => 0,
        Meaning::List(count) => usize::from(count),
        Meaning::FirstAndLast if group.areas[0] > group.areas[1] => return false,
        Meaning::FirstAndLast => 2,
    };
    let (carried, beyond) = group.areas.split_at(count);
    carried.iter().all(|area| *area <= 15) && beyond.iter().all(|area| *area == 0)
}

/// The rule of a group that is there, of one address alone, or of nothing.
fn group_rule(profile: &Profile, group: &FlatGroup, whole: bool, one: bool) -> bool {
    if group.range > if whole { 15 } else { 0 } {
        return false;
    }
    let count = match meaning_of(profile, group.range) {
        _ if !whole => usize::from(one),
        Meaning::Reserved => return false,
        Meaning::NoIdentity => 0,
        Meaning::List(count) => usize::from(count),
        Meaning::FirstAndLast => {
            let (first, last) = (&group.addresses[0], &group.addresses[1]);
            if (first.kind, first.extension) != (last.kind, last.extension)
                || !(first.ssi..first.ssi + 64).contains(&last.ssi)
            {
                return false;
            }
            2
        }
    };
    let (there, beyond) = group.addresses.split_at(count);
    there.iter().all(address_rule) && beyond.iter().all(|rest| *rest == Address::default())
}

fn address_rule(address: &Address) -> bool {
    address.ssi < 1 << 24
        && match address.kind {
            1 => address.extension == 0,
            2 => address.extension < 1 << 24,
            _ => false,
        }
}

/// No bit of an absent mask, and none beyond the identities; asked once the group is good.
fn mask_rule(profile: &Profile, value: &Value) -> bool {
    if !value.masked {
        return value.mask == 0;
    }
    let identities = match meaning_of(profile, value.users.range) {
        Meaning::List(count) => u32::from(count),
        _ => value.users.addresses[1].ssi - value.users.addresses[0].ssi + 1,
    };
    identities == 64 || value.mask << identities == 0
}
