//! The table of worked values for `rounds`: 1 to 18 are written, 19 to 23 try the area's size,
//! 24 to 37 are not valid; from 38 on the same for request (iv), from 65 on for request (i), and
//! from 109 on for request (viii).
//! All of it is meant for the sample profile.

mod deactivations;
mod interrogations;
mod requests;

use crate::message::Address;
use crate::value::{FlatGroup, Value};

/// A value and the size in bytes of the area that it is written into.
pub struct Row {
    pub area: usize,
    pub value: Value,
}

const WIDE: usize = 48;
const NARROW: usize = 12;
const LARGEST: u32 = (1 << 24) - 1;

/// The rows in order; row K, counted from 1, is at K - 1.
pub fn rows() -> Vec<Row> {
    let mut rows = Vec::new();
    for (area, value) in written().into_iter().chain(sizes()) {
        rows.push(Row { area, value });
    }
    for value in not_valid() {
        rows.push(Row {
            area: NARROW,
            value,
        });
    }
    rows.extend(requests::rows());
    rows.extend(deactivations::rows());
    rows.extend(interrogations::rows());
    rows
}

fn written() -> Vec<(usize, Value)> {
    let range_of_64 = group(15, &[far(64, 9), far(127, 9)]);
    let three_users = group(3, &[far(LARGEST, LARGEST), home(0), far(1, 0)]);
    vec![
        (NARROW, activate(range_of_4())),
        (
            WIDE,
            with_dispatchers(
                activate(group(2, &[home(1001), far(7, 5)])),
                group(1, &[home(9)]),
            ),
        ),
        (WIDE, activate_none()),
        (
            WIDE,
            with_dispatchers(
                activate(three_users),
                group(15, &[far(100, 3), far(163, 3)]),
            ),
        ),
        (WIDE, masked(accepted(range_of_4()), &[0, 1])),
        (WIDE, masked(failed(range_of_4(), 1), &[2])),
        (WIDE, accepted(range_of_4())),
        (WIDE, failed(group(3, &[home(1), home(1), far(2, 4)]), 127)),
        (
            WIDE,
            masked(failed(range_of_64, 2), &Vec::from_iter((0..64).step_by(2))),
        ),
        (WIDE, interrogate(home(1001))),
        (WIDE, interrogate(far(1001, 77))),
        (WIDE, with_cause(10, 0)),
        (WIDE, with_dispatcher(with_cause(10, 2), home(1))),
        (WIDE, with_identifier(12, 5)),
        (WIDE, of_type(13)),
        (WIDE, with_identifier(15, 16_383)),
        (WIDE, with_cause(16, 0)),
        (WIDE, with_dispatcher(with_cause(16, 31), far(LARGEST, 1))),
    ]
}

fn sizes() -> Vec<(usize, Value)> {
    vec![
        (9, activate(range_of_4())),
        (8, activate(range_of_4())),
        (2, of_type(13)),
        (1, of_type(13)),
        (0, of_type(13)),
    ]
}

fn not_valid() -> Vec<Value> {
    let mut mask_absent = masked(accepted(range_of_4()), &[0]);
    mask_absent.masked = false;

    let mut kind_1_with_extension = interrogate(home(1001));
    kind_1_with_extension.users.addresses[0].extension = 77;

    let mut beyond_the_count = activate_none();
    beyond_the_count.users.addresses[1] = home(2);

    let mut accepted_with_reason = accepted(range_of_4());
    accepted_with_reason.reason = 1;

    let mut option_absent = with_dispatchers(activate(range_of_4()), group(1, &[home(9)]));
    option_absent.option = false;

    let mut interrogate_with_range = interrogate(home(1001));
    interrogate_with_range.users.range = 1;

    vec![
        masked(accepted(range_of_4()), &[0, 1, 4]),
        mask_absent,
        kind_1_with_extension,
        beyond_the_count,
        accepted_with_reason,
        option_absent,
        with_identifier(12, 16_384),
        with_cause(10, 32),
        activate(group(4, &[])),
        activate(group(0, &[])),
        activate(group(15, &[home(1004), home(1001)])),
        activate(group(15, &[home(1), home(65)])),
        of_type(5),
        interrogate_with_range,
    ]
}

/// An address of kind 1.
fn home(ssi: u32) -> Address {
    Address {
        kind: 1,
        ssi,
        extension: 0,
    }
}

/// An address of kind 2.
fn far(ssi: u32, extension: u32) -> Address {
    Address {
        kind: 2,
        ssi,
        extension,
    }
}

fn group(range: u32, addresses: &[Address]) -> FlatGroup {
    let mut group = FlatGroup {
        range,
        ..FlatGroup::default()
    };
    group.addresses[..addresses.len()].copy_from_slice(addresses);
    group
}

/// The users of document 01's case 8.
fn range_of_4() -> FlatGroup {
    group(15, &[home(1001), home(1004)])
}

fn of_type(pdu: u32) -> Value {
    Value {
        pdu,
        ..Value::default()
    }
}

fn activate(users: FlatGroup) -> Value {
    Value {
        users,
        ..of_type(2)
    }
}

/// An option that is there and says "none".
fn activate_none() -> Value {
    with_dispatchers(activate(group(1, &[home(1)])), group(0, &[]))
}

fn with_dispatchers(value: Value, dispatchers: FlatGroup) -> Value {
    Value {
        option: true,
        dispatchers,
        ..value
    }
}

fn accepted(users: FlatGroup) -> Value {
    Value {
        users,
        result: 1,
        ..of_type(3)
    }
}

fn failed(users: FlatGroup, reason: u32) -> Value {
    Value {
        users,
        reason,
        ..of_type(3)
    }
}

/// The value with a mask that has a one at each of the identities given.
fn masked(value: Value, identities: &[usize]) -> Value {
    let mut mask = 0;
    for identity in identities {
        mask |= 1 << (63 - identity);
    }
    Value {
        masked: true,
        mask,
        ..value
    }
}

fn interrogate(user: Address) -> Value {
    Value {
        users: group(0, &[user]),
        ..of_type(8)
    }
}

fn with_cause(pdu: u32, cause: u32) -> Value {
    Value {
        cause,
        ..of_type(pdu)
    }
}

fn with_dispatcher(value: Value, dispatcher: Address) -> Value {
    with_dispatchers(value, group(0, &[dispatcher]))
}

fn with_identifier(pdu: u32, identifier: u32) -> Value {
    Value {
        identifier,
        ..of_type(pdu)
    }
}
