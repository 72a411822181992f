//! Messages laid out by hand, element by element, from document 01's table and clause 6.1 of 001,
//! for the sample profile. Every element stands here in every part of a message that it may have.

use crate::element::Element::{self, *};

/// An element, its number and its width.
pub type Laid = (Element, u64, usize);
type Row<'a> = &'a [Laid];

/// A whole message: where an element begins is the sum of the widths before it.
pub struct Shape {
    pub name: &'static str,
    pub elements: Vec<Laid>,
}

impl Shape {
    pub fn bits(&self) -> Vec<bool> {
        let mut bits = Vec::new();
        for (_, number, width) in &self.elements {
            bits.extend((0..*width).rev().map(|place| (number >> place) & 1 == 1));
        }
        bits
    }
}

const USER: Row = &[(Kind, 1, 2), (Ssi, 1001, 24)];
const LATER: Row = &[(Kind, 1, 2), (Ssi, 1004, 24)];
const FAR: Row = &[(Kind, 2, 2), (Ssi, 1001, 24), (Extension, 0xAB_CDEF, 24)];
const FAR_64TH: Row = &[(Kind, 2, 2), (Ssi, 1064, 24), (Extension, 0xAB_CDEF, 24)];

const LIST_OF_1: Row = &[(Range, 1, 4)];
const LIST_OF_2: Row = &[(Range, 2, 4)];
const LIST_OF_3: Row = &[(Range, 3, 4)];
const FIRST_AND_LAST: Row = &[(Range, 15, 4)];
const NONE: Row = &[(Range, 0, 4)];

const O_BIT_0: Row = &[(OBit, 0, 1)];
const O_BIT_1: Row = &[(OBit, 1, 1)];
const P_BIT_0: Row = &[(PBit, 0, 1)];
const P_BIT_1: Row = &[(PBit, 1, 1)];

const ACCEPTED: Row = &[(Result, 1, 1)];
const REASON: Row = &[(Result, 0, 1), (Reason, 2, 7)];
const NO_MASK: Row = &[(MaskPresent, 0, 1)];

/// Accepted, with what follows; not accepted, with its reason.
const STATE: Row = &[
    (Result, 1, 1),
    (ActivationType, 1, 1),
    (InterceptionType, 0, 1),
    (BasicService, 0, 2),
    (BasicService, 3, 2),
];
const FAILURE: Row = &[(Result, 0, 1), (Reason, 5, 3)];
const RANGES: [Row; 3] = [FIRST_AND_LAST, FAR, FAR_64TH];

const CALL: Row = &[(Identifier, 5, 14)];
const CAUSE: Row = &[(Cause, 2, 5)];

/// REQUEST's third option to its seventh.
const NUMBERS: [Row; 5] = [
    &[(Mni, 5, 24)],
    &[(Area, 1, 4)],
    &[(Area, 2, 4)],
    &[(BasicService, 1, 2)],
    &[(BasicService, 2, 2)],
];

pub fn shapes() -> Vec<Shape> {
    let mut shapes = Vec::new();
    shapes.extend(activates());
    for (name, pdu_type) in [("ACTIVATE ACK", 3), ("DEACTIVATE ACK", 5)] {
        shapes.extend(acks(name, pdu_type));
    }
    shapes.push(shape("DEACTIVATE", 4, &[LIST_OF_3, FAR, USER, FAR_64TH]));
    shapes.push(shape("DEACTIVATE", 4, &[LIST_OF_2, USER, LATER]));
    shapes.push(shape("DEACTIVATE", 4, &[FIRST_AND_LAST, USER, LATER]));
    shapes.push(shape("DEACTIVATE", 4, &[FIRST_AND_LAST, FAR, FAR_64TH]));
    shapes.push(shape("INTERROGATE", 8, &[USER]));
    shapes.push(shape("INTERROGATE", 8, &[FAR]));
    for (name, pdu_type) in [("INTERCEPTED", 10), ("DIVERTED", 16), ("REJECTED", 18)] {
        shapes.push(shape(name, pdu_type, &[CAUSE, O_BIT_0]));
        shapes.push(shape(name, pdu_type, &[CAUSE, O_BIT_1, P_BIT_1, USER]));
        shapes.push(shape(name, pdu_type, &[CAUSE, O_BIT_1, P_BIT_1, FAR]));
    }
    shapes.extend(requests());
    for (name, pdu_type) in [("ACCEPT", 12), ("CANCEL", 14), ("DIVERT", 15)] {
        shapes.push(shape(name, pdu_type, &[CALL]));
    }
    shapes.push(shape("REJECT", 17, &[CALL, CAUSE]));
    shapes.push(shape("ACCEPTED", 13, &[]));
    shapes
}

fn shape(name: &'static str, pdu_type: u64, rows: &[Row]) -> Shape {
    let header: Row = &[(SsType, 9, 6), (PduType, pdu_type, 5)];
    Shape {
        name,
        elements: [&[header], rows].concat().concat(),
    }
}

fn activates() -> Vec<Shape> {
    let option: Row = &[O_BIT_1, P_BIT_1].concat();
    [
        &[LIST_OF_3, USER, FAR, LATER, O_BIT_0][..],
        &[LIST_OF_1, FAR, option, LIST_OF_3, FAR, USER, FAR_64TH],
        &[LIST_OF_2, USER, USER, option, LIST_OF_2, USER, LATER],
        &[
            FIRST_AND_LAST,
            USER,
            LATER,
            option,
            FIRST_AND_LAST,
            FAR,
            FAR_64TH,
        ],
        &[
            FIRST_AND_LAST,
            FAR,
            FAR_64TH,
            option,
            FIRST_AND_LAST,
            USER,
            LATER,
        ],
        &[LIST_OF_1, USER, option, NONE],
    ]
    .map(|rows| shape("ACTIVATE", 2, rows))
    .into()
}

fn acks(name: &'static str, pdu_type: u64) -> Vec<Shape> {
    let mask = |mask, width| [(MaskPresent, 1, 1), (Mask, mask, width)];
    [
        &[LIST_OF_3, FAR, USER, FAR_64TH, &mask(0b010, 3), REASON][..],
        &[LIST_OF_1, USER, &mask(1, 1), ACCEPTED],
        &[LIST_OF_2, USER, LATER, NO_MASK, ACCEPTED],
        &[FIRST_AND_LAST, USER, LATER, &mask(0b1100, 4), REASON],
        &[
            FIRST_AND_LAST,
            FAR,
            FAR_64TH,
            &mask(u64::MAX - 1, 64),
            ACCEPTED,
        ],
        &[FIRST_AND_LAST, FAR, FAR_64TH, NO_MASK, REASON],
    ]
    .map(|rows| shape(name, pdu_type, rows))
    .into()
}

/// No option, all of them, and every other one, with each kind of address in both places.
fn requests() -> Vec<Shape> {
    let mut shapes = vec![shape("REQUEST", 11, &[CALL, CAUSE, O_BIT_0])];
    for (calling, called) in [(USER, FAR), (FAR, USER)] {
        let options = [&[calling, called], &NUMBERS[..]].concat();
        for chosen in [0b111_1111, 0b101_0101, 0b010_1010] {
            let mut rows = vec![CALL, CAUSE, O_BIT_1];
            for (number, option) in options.iter().enumerate() {
                match (chosen >> number) & 1 {
                    1 => rows.extend([P_BIT_1, option]),
                    _ => rows.push(P_BIT_0),
                }
            }
            shapes.push(shape("REQUEST", 11, &rows));
        }
    }
    shapes
}

/// INTERROGATE ACK: each group absent, "none", a list and a range, each of both kinds of address.
pub fn interrogations() -> Vec<Shape> {
    let mask = |mask, width| [(MaskPresent, 1, 1), (Mask, mask, width)];
    let (list, range): (Row, Row) = (&[LIST_OF_3, FAR, USER, FAR_64TH].concat(), &RANGES.concat());
    let far_list: Row = &[LIST_OF_2, FAR, FAR_64TH].concat();
    let home_range: Row = &[FIRST_AND_LAST, USER, LATER].concat();
    let areas: Row = &[(Range, 3, 4), (Area, 1, 4), (Area, 15, 4), (Area, 0, 4)];
    let area_range: Row = &[(Range, 15, 4), (Area, 3, 4), (Area, 5, 4)];
    let one_area_twice: Row = &[(Range, 15, 4), (Area, 7, 4), (Area, 7, 4)];
    let one: Row = &[LIST_OF_1, USER].concat();

    let rows: [(&[Row], [Row; 4]); 9] = [
        (&[one, NO_MASK, FAILURE], [&[]; 4]),
        (&[home_range, NO_MASK, STATE], [&[]; 4]),
        (
            &[list, &mask(0b010, 3), FAILURE],
            [list, far_list, list, areas],
        ),
        (
            &[range, &mask(u64::MAX - 1, 64), STATE],
            [range, range, range, area_range],
        ),
        (&[one, &mask(1, 1), STATE], [NONE, NONE, NONE, NONE]),
        (
            &[far_list, NO_MASK, FAILURE],
            [&[], &[], &[], one_area_twice],
        ),
        (&[one, NO_MASK, STATE], [&[], home_range, &[], NONE]),
        (&[one, NO_MASK, STATE], [far_list, &[], home_range, &[]]),
        (
            &[home_range, NO_MASK, FAILURE],
            [home_range, &[], one, areas],
        ),
    ];
    rows.map(|(before, groups)| interrogation(before, groups))
        .into()
}

/// Without any group there is an O-bit of 0 alone.
fn interrogation(before: &[Row], groups: [Row; 4]) -> Shape {
    let mut rows = before.to_vec();
    if groups.iter().all(|group| group.is_empty()) {
        rows.push(O_BIT_0);
    } else {
        rows.push(O_BIT_1);
        for group in groups {
            match group.is_empty() {
                true => rows.push(P_BIT_0),
                false => rows.extend([P_BIT_1, group]),
            }
        }
    }
    shape("INTERROGATE ACK", 9, &rows)
}
