//! Where a message broke off: the names and numbers, the worked lines, and messages laid out by
//! hand cut at every bit.

use super::break_laws;
use super::desk::check_script;
use super::Report;
use crate::breakable::places;
use crate::interface::{cad_read, cad_read_at};
use crate::laid_out::{interrogations, shapes, Shape};
use crate::layout::profile_bytes;
use crate::line::line_of;
use crate::listing::list;
use crate::message::read;
use crate::profile::sample;
use crate::refusal::Refusal;
use crate::replay::replay;
use crate::trail::trail;
use crate::write::bytes_of;
use std::collections::BTreeSet;
use std::io;

/// The design's page: by name, in the order of their numbers from 1.
const IN_ORDER: &str = "ss-type pdu-type range kind ssi extension mask-present mask result reason \
    cause identifier o-bit p-bit mni area basic-service activation-type interception-type";

pub fn check(report: &mut Report) -> io::Result<()> {
    names(report)?;
    worked_lines(report)?;
    for (what, script, answers) in super::break_scripts::SCRIPTS {
        check_script(report, what, script, answers)?;
    }
    let mut shapes = shapes();
    shapes.extend(interrogations());
    for shape in &shapes {
        cut_everywhere(report, shape)?;
    }
    every_place(report, &shapes)?;
    numbers_stand(report)?;
    break_laws::check(report)
}

fn names(report: &mut Report) -> io::Result<()> {
    let in_order: Vec<&str> = IN_ORDER.split(' ').collect();
    let mut came = BTreeSet::new();
    let mut good = true;
    for (_, element, _) in places() {
        came.insert(element.number());
        good &= in_order.get(element.number() as usize - 1) == Some(&element.name());
    }
    good &= came.into_iter().eq(1..=19);
    report.check("4: nineteen elements, each with its name and number", good)
}

fn worked_lines(report: &mut Report) -> io::Result<()> {
    let mut output = Vec::new();
    list(b"24 25800280\n10 25A0\n12 25A0\n0 25A0\n", &mut output)?;
    let wanted = b"1 refused 4 at 11\n2 refused 4 at 6\n3 refused 13\n4 refused 3\n";
    report.check(
        "listing: a 4 says where, and nothing else does",
        output == wanted,
    )?;

    let (mut position, mut element) = (77, 78);
    let answer = cad_read_at(
        &profile_bytes(&sample()),
        &[0x25, 0x80, 0x02, 0x80],
        24,
        &mut [],
        &mut position,
        &mut element,
    );
    let good = (answer, position, element) == (4, 11, 12);
    report.check("cad_read_at: 24 bits of ACCEPT: 4 at 11, element 12", good)
}

/// Cut anywhere inside an element, the message breaks off where that element begins; whole, it is
/// read. The listing, the replay and the call from C say so too.
fn cut_everywhere(report: &mut Report, shape: &Shape) -> io::Result<()> {
    let profile = sample();
    let bits = shape.bits();
    let bytes = bytes_of(&bits);
    let whole = read(&profile, &bytes, bits.len());
    let mut good = whole.map(|message| message.name()) == Ok(shape.name);

    let mut position = 0;
    for (element, _, width) in &shape.elements {
        for length in position.max(1)..position + width {
            let broke_off = Refusal::BrokeOff {
                position,
                element: *element,
            };
            good &= read(&profile, &bytes, length) == Err(broke_off);

            let line = line_of(length, &bytes);
            let mut said = Vec::new();
            list(&line, &mut said)?;
            replay(&[b"post 0 ", &line[..]].concat(), &mut said)?;
            let wanted = format!(
                "1 refused 4 at {position}\n1 refused 4 at {position} {}\n",
                element.name()
            );
            good &= said == wanted.as_bytes();

            let (mut at, mut number) = (0, 0);
            let lent = profile_bytes(&profile);
            let answer = cad_read_at(&lent, &bytes, length, &mut [], &mut at, &mut number);
            good &= (answer, at as usize, number) == (4, position, element.number());
            good &= cad_read(&lent, &bytes, length, &mut []) == 4;
        }
        position += width;
    }
    good &= position == bits.len();
    let what = format!("4: {} of {position} bits cut at every bit", shape.name);
    report.check(&what, good)
}

/// The layouts by hand leave nothing out that `breaks` counts.
fn every_place(report: &mut Report, shapes: &[Shape]) -> io::Result<()> {
    let mut wanted: BTreeSet<_> = places().into_iter().collect();
    for shape in shapes {
        let bits = shape.bits();
        let pdu_type = shape.elements[1].1 as u32;
        for span in trail(&sample(), &bytes_of(&bits), bits.len()) {
            let of_header = span.begin < 11;
            let pdu_type = if of_header { 0 } else { pdu_type };
            wanted.remove(&(pdu_type, span.element, span.part));
        }
    }
    let what = format!("4: {} places to break off, all laid out", places().len());
    report.check(&what, wanted.is_empty())
}

/// With every other answer of reading the two numbers stay.
fn numbers_stand(report: &mut Report) -> io::Result<()> {
    let profile = profile_bytes(&sample());
    // Bytes, bit length and answer; those that are good meet a value area of one byte too few.
    let rows: [(&[u8], usize, u32); 11] = [
        (&[0x25, 0xA0], 0, 3),
        (&[0x29, 0xA0], 11, 5),
        (&[0x24, 0x00], 11, 6),
        (&[0x24, 0xC0], 11, 7),
        (&[0x24, 0x40], 15, 9),
        (&[0x25, 0x00], 13, 10),
        (
            &[0x24, 0x9E, 0x80, 0x01, 0xF6, 0x20, 0x00, 0x7D, 0x20],
            67,
            11,
        ),
        (&[0x25, 0x40, 0x80], 18, 12),
        (&[0x25, 0xA0], 12, 13),
        (&[0x25, 0xA0], 11, 14),
        (&[0x25, 0x80, 0x02, 0x80], 25, 14),
    ];
    let mut good = true;
    for (bytes, length, wanted) in rows {
        let (mut position, mut element) = (77, 78);
        let mut value = [0x55; 470];
        let numbers = (&mut position, &mut element);
        let answer = cad_read_at(&profile, bytes, length, &mut value, numbers.0, numbers.1);
        good &= (answer, position, element) == (wanted, 77, 78) && value == [0x55; 470];
        let answer = cad_read_at(&[], bytes, length, &mut value, &mut position, &mut element);
        good &= (answer, position, element) == (1, 77, 78) && value == [0x55; 470];
    }
    let (mut position, mut element) = (77, 78);
    let mut value = [0x55; 471];
    let numbers = (&mut position, &mut element);
    let answer = cad_read_at(
        &profile,
        &[0x25, 0xA0],
        11,
        &mut value,
        numbers.0,
        numbers.1,
    );
    good &= (answer, position, element) == (0, 77, 78) && value[0] == 13;
    report.check(
        "cad_read_at: the two numbers stay with 0, 1, 3, 5, 6, 7, 9 to 14",
        good,
    )
}
