//! INTERROGATE answered by INTERROGATE ACK: worked scripts, the whole output area, the longest
//! message and the bounds around it, and what long histories answer, told a second way.

use super::desk::check_script;
use super::interrogation_answers::Differed;
use super::interrogation_reader;
use super::laws::{enough, run_history, LINES_OF_HISTORY};
use super::ledger::Ledger;
use super::Report;
use crate::desk::{Answer, Desk, Lent, State};
use crate::interface::{cad_read, cad_write};
use crate::layout::{profile_bytes, VALUE_BYTES};
use crate::message::read;
use crate::profile::{sample, Meaning, Profile};
use crate::records::Record;
use crate::refusal::Refusal::{self, Number};
use crate::write::{bytes_of, elements};
use std::io;

const SEEDS: [u64; 3] = [20, 21, 22];
/// INTERROGATE of 1,001.
const REQUEST: (&[u8], usize) = (&[0x25, 0x08, 0x00, 0x1F, 0x48], 37);

pub fn check(report: &mut Report) -> io::Result<()> {
    for (what, script, answers) in super::interrogation_scripts::SCRIPTS {
        check_script(report, what, script, answers)?;
    }
    output_areas(report)?;
    longest(report)?;
    most_bits(report)?;
    interrogation_reader::check(report)?;
    histories(report)
}

/// Each answer on an area of AA: the bytes that are written and not one more, nor any record.
fn output_areas(report: &mut Report) -> io::Result<()> {
    let record = |post, active| Record {
        in_use: true,
        ssi: 1001,
        post,
        active,
        ..Record::default()
    };
    let rows: [(&str, Option<Record>, State, usize, &[u8]); 4] = [
        (
            "no record",
            None,
            State::NoRecord,
            47,
            &[0x25, 0x22, 0x80, 0x01, 0xF4, 0x84],
        ),
        (
            "another post's",
            Some(record(1, true)),
            State::OtherPost,
            47,
            &[0x25, 0x22, 0x80, 0x01, 0xF4, 0x88],
        ),
        (
            "active",
            Some(record(0, true)),
            State::Active,
            50,
            &[0x25, 0x22, 0x80, 0x01, 0xF4, 0xB0, 0x00],
        ),
        (
            "not active",
            Some(record(0, false)),
            State::NotActive,
            50,
            &[0x25, 0x22, 0x80, 0x01, 0xF4, 0xA0, 0x00],
        ),
    ];
    for (what, record, state, bits, bytes) in rows {
        let (answer, same, output) = asked(sample(), record, 300);
        let mut wanted = [0xAA; 300];
        wanted[..bytes.len()].copy_from_slice(bytes);
        let good = answer == Ok(Answer::State { state, bits }) && same && output == wanted;
        report.check(
            &format!("desk: INTERROGATE writes its ACK at byte 0, no byte more: {what}"),
            good,
        )?;
    }
    let mut no_list = sample();
    no_list.meanings[1] = Meaning::List(2);
    let (answer, same, output) = asked(no_list, Some(record(0, true)), 300);
    let good = answer == Err(Number(26)) && same && output == [0xAA; 300];
    report.check("desk: 26 writes no byte", good)?;
    let (answer, same, output) = asked(sample(), Some(record(0, true)), 299);
    let good = answer == Err(Number(14)) && same && output == [0xAA; 299];
    report.check("desk: 14 at INTERROGATE writes no byte", good)
}

/// The answer, whether records and desk are what they were, and the output area.
fn asked(
    profile: Profile,
    record: Option<Record>,
    room: usize,
) -> (Result<Answer, Refusal>, bool, Vec<u8>) {
    let mut desk = Desk::open(profile).expect("the profile keeps the rules");
    let mut records: Vec<Record> = record.into_iter().collect();
    let mut output = vec![0xAA; room];
    let (desk_before, records_before) = (desk.clone(), records.clone());
    let lent = Lent {
        records: &mut records,
        output: &mut output,
    };
    let answer = desk.message(lent, 0, REQUEST.0, REQUEST.1);
    let same = desk == desk_before && records == records_before;
    (answer, same, output)
}

/// 11, users 4 + 15 x 50, mask 1 + 15, result and state 7, O-bit 1, three groups of 1 + 4 + 15 x 50
/// and areas 1 + 4 + 15 x 4: 3,119 bits. All numbers are as large as they can be.
fn longest(report: &mut Report) -> io::Result<()> {
    let mut profile = sample();
    profile.meanings[14] = Meaning::List(15);
    let far = [(2, 2), (0xFF_FFFF, 24), (0xFF_FFFF, 24)].repeat(15);
    let group = [&[(1, 1), (14, 4)], &far[..]].concat();
    let row = [
        &[(9, 6), (9, 5), (14, 4)],
        &far[..],
        &[(1, 1), (0x7FFF, 15), (1, 1), (1, 1), (1, 1), (3, 2), (3, 2)],
        &[(1, 1)],
        &group,
        &group,
        &group,
        &[(1, 1), (14, 4)],
        &[(15, 4)].repeat(15),
    ]
    .concat();
    let mut bits = elements(&row);
    let own = bits.len();
    report.check("INTERROGATE ACK: the longest has 3,119 bits", own == 3119)?;

    bits.push(false);
    let bytes = bytes_of(&bits);
    let number = |length| {
        let answer = read(&profile, &bytes, length);
        answer.map_or_else(|refusal| refusal.number(), |_| 0)
    };
    let good = number(own) == 0
        && number(own + 1) == 13
        && (1..own).all(|length| number(length) == 4)
        && number(0) == 3;
    report.check(
        "INTERROGATE ACK: the longest is read, and 4 where it is cut",
        good,
    )?;

    let lent = profile_bytes(&profile);
    let mut value = [0x55; VALUE_BYTES];
    let mut good = cad_read(&lent, &bytes, own, &mut value) == 0;
    let (mut message, mut length) = ([0xAA; 391], 0);
    good &= cad_write(&lent, &value, &mut message[..389], &mut length) == 14;
    good &= message == [0xAA; 391] && length == 0;
    good &= cad_write(&lent, &value, &mut message, &mut length) == 0;
    good &= length == own && message[..390] == bytes[..390] && message[390] == 0xAA;
    report.check("INTERROGATE ACK: the longest through C, 390 bytes", good)
}

/// 3's bound, with as many bytes as it takes; ACCEPTED with bits left over.
fn most_bits(report: &mut Report) -> io::Result<()> {
    let mut bytes = vec![0x25, 0xA0];
    bytes.resize(600, 0);
    for (length, lent, number) in [
        (2048, 256, 13),
        (2049, 257, 13),
        (4095, 512, 13),
        (4096, 512, 13),
        (4096, 511, 3),
        (4097, 512, 3),
        (4097, 513, 3),
        (4800, 600, 3),
    ] {
        let good = read(&sample(), &bytes[..lent], length) == Err(Number(number));
        report.check(&format!("{length} bits of {lent} bytes: {number}"), good)?;
    }
    Ok(())
}

fn histories(report: &mut Report) -> io::Result<()> {
    let mut differed = Differed::new();
    for seed in SEEDS {
        let mut ledger = Ledger::new();
        run_history(seed, |line, step| {
            differed.look(&ledger, &line, step);
            let profile = &step.before.desk.profile;
            ledger.note(profile, &step.after.records, &line, step.answer);
        });
    }
    let lines = SEEDS.len() * LINES_OF_HISTORY;
    let Differed {
        asked,
        told_otherwise,
        ..
    } = differed;
    let all = format!("desk: {lines} lines with {asked} INTERROGATEs:");
    report.check(
        &format!("{all} each is answered as told a second way"),
        enough(&[asked]) && told_otherwise == 0,
    )?;
    differed.check(report, &all)
}
