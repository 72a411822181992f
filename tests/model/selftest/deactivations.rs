//! DEACTIVATE and DEACTIVATE ACK: worked scripts, the whole output area, and reading beside
//! ACTIVATE's.

use super::deactivation_laws::histories;
use super::desk::check_script;
use super::laws::enough;
use super::Report;
use crate::desk::{Answer, Desk, Lent};
use crate::dice::Dice;
use crate::draw;
use crate::hex::read_hex;
use crate::message::{read, Message};
use crate::profile::sample;
use crate::records::Record;
use crate::refusal::Refusal::Number;
use crate::user_fault;
use crate::write::{bytes_of, elements};
use std::io;

const FAULTY_MESSAGES: usize = 20_000;

pub fn check(report: &mut Report) -> io::Result<()> {
    for (what, script, answers) in super::deactivation_scripts::SCRIPTS {
        check_script(report, what, script, answers)?;
    }
    output_area(report)?;
    read_as_activate(report)?;
    histories(report)
}

/// Case 9's records: three ACKs at bytes 0, 100 and 200, and not a byte more.
fn output_area(report: &mut Report) -> io::Result<()> {
    let mut desk = Desk::open(sample()).expect("the sample profile keeps the rules");
    let record = |ssi, post| Record {
        in_use: true,
        ssi,
        post,
        active: true,
        ..Record::default()
    };
    let mut records = [record(1001, 0), record(1002, 0), record(1004, 1)];
    let mut output = [0xAA_u8; 301];
    let lent = Lent {
        records: &mut records,
        output: &mut output,
    };
    let request = read_hex(b"249E8001F4A0007D80").unwrap_or_default();
    let answer = desk.message(lent, 0, &request, 67);

    let mut wanted = [0xAA_u8; 301];
    for (number, hex) in ["9C80", "9201", "9102"].iter().enumerate() {
        let ack = read_hex(format!("24BE8001F4A0007D{hex}").as_bytes()).unwrap_or_default();
        wanted[100 * number..100 * number + ack.len()].copy_from_slice(&ack);
    }
    let bits = vec![73, 80, 80];
    let good = answer == Ok(Answer::Acks { bits }) && output == wanted;
    report.check(
        "desk: DEACTIVATE's ACKs stand at bytes 0, 100 and 200, no byte more",
        good,
    )?;
    let marks = records.map(|record| record.active);
    report.check(
        "desk: the marks of 1,001 and 1,002 are cleared, that of 1,004 stays",
        marks == [false, false, true],
    )
}

/// A DEACTIVATE is read as an ACTIVATE without an option is, whose O-bit it lacks, and its ACK as
/// ACTIVATE's.
fn read_as_activate(report: &mut Report) -> io::Result<()> {
    let mut dice = Dice::new(16);
    let (mut good, mut whole, mut refused) = (true, 0, 0);
    for _ in 0..FAULTY_MESSAGES {
        let profile = draw::profile(&mut dice);
        let mut bits = user_fault::deactivation(&mut dice, &profile);
        if bits.len() < 11 || bits[..6] != elements(&[(profile.ss_type, 6)])[..] {
            continue;
        }
        let read_with = |bits: &[bool]| read(&profile, &bytes_of(bits), bits.len());
        let answer = read_with(&bits);
        match &answer {
            Ok(_) => whole += 1,
            Err(_) => refused += 1,
        }
        let other_type = match number_of(&bits[6..11]) {
            4 => 2,
            5 => 3,
            _ => continue,
        };
        bits.splice(6..11, elements(&[(other_type, 5)]));
        let as_activate = match (answer, other_type) {
            (Ok(Message::Deactivate { users }), 2) => {
                bits.push(false);
                Ok(Message::Activate {
                    users,
                    dispatchers: None,
                })
            }
            (Ok(Message::DeactivateAck(ack)), 3) => Ok(Message::ActivateAck(ack)),
            // What is left over behind a DEACTIVATE could be an ACTIVATE's option.
            (Err(Number(13)), 2) => continue,
            (other, _) => other,
        };
        good &= read_with(&bits) == as_activate;
    }
    report.check(
        &format!("{whole} DEACTIVATE and ACK read as ACTIVATE's are, {refused} refused so"),
        good && enough(&[whole, refused]),
    )
}

fn number_of(bits: &[bool]) -> u32 {
    let mut number = 0;
    for bit in bits {
        number = 2 * number + u32::from(*bit);
    }
    number
}
