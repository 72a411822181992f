//! Rows 109 to 155, of INTERROGATE ACK: 109 to 124 are written, 125 to 128 try the area's size, 129
//! to 155 are not valid.

use super::{far, group, home, masked, of_type, range_of_4};
use super::{Row, LARGEST, NARROW, WIDE};
use crate::message::Address;
use crate::value::{FlatAreas, FlatGroup, Value};

/// All that the longest under the sample profile takes.
const WIDER: usize = 96;

pub fn rows() -> Vec<Row> {
    let mut rows = Vec::new();
    for value in written() {
        rows.push(Row { area: WIDE, value });
    }
    rows.push(Row {
        area: WIDER,
        value: longest(),
    });
    for (area, value) in [
        (30, four_groups()),
        (29, four_groups()),
        (6, failed(1)),
        (5, failed(1)),
    ] {
        rows.push(Row { area, value });
    }
    for value in not_valid() {
        rows.push(Row {
            area: NARROW,
            value,
        });
    }
    rows
}

fn written() -> Vec<Value> {
    let nobody = || group(0, &[]);
    let dispatchers_none = Value {
        option: true,
        dispatchers: nobody(),
        ..state(1)
    };
    let sources_none = with(failed(7), |value| value.further[0] = true);
    let destinations = Value {
        further: [false, true, false, false, false, false],
        destinations: group(3, &[far(LARGEST, LARGEST), home(0), far(1, 0)]),
        ..failed(0)
    };
    let all_numbers = Value {
        interception: 1,
        services: [1, 2],
        ..state(1)
    };
    vec![
        state(1),
        state(0),
        failed(1),
        with_areas(failed(1), areas(15, &[3, 5])),
        four_groups(),
        all_numbers,
        dispatchers_none,
        sources_none,
        destinations,
        with_areas(state(0), areas(0, &[])),
        with_areas(state(1), areas(15, &[15, 15])),
        with_areas(state(1), areas(15, &[0, 15])),
        with_areas(state(1), areas(3, &[9, 0, 0])),
        masked(users(state(1), range_of_4()), &[0, 1]),
        masked(users(failed(2), range_of_4()), &[]),
    ]
}

fn not_valid() -> Vec<Value> {
    let external = |value: &mut FlatGroup| {
        value.addresses[0] = Address {
            kind: 3,
            ..home(1004)
        };
    };
    vec![
        failed(8),
        with(failed(1), |value| value.activation = 1),
        with(failed(1), |value| value.interception = 1),
        with(failed(1), |value| value.services[0] = 1),
        with(state(1), |value| value.reason = 1),
        with(state(1), |value| value.activation = 2),
        with(state(1), |value| value.interception = 2),
        with(state(1), |value| value.services[1] = 4),
        with(state(1), |value| value.result = 2),
        with(state(1), |value| value.cause = 1),
        with(state(1), |value| value.further[3] = true),
        with(state(1), |value| value.mni = 5),
        with(state(1), |value| value.areas[0] = 1),
        with(state(1), |value| value.users.range = 0),
        with(state(1), |value| value.mask = 1 << 63),
        with(four_groups(), |value| value.option = false),
        with(four_groups(), |value| value.further[0] = false),
        with(four_groups(), |value| value.further[1] = false),
        with(four_groups(), |value| value.further[2] = false),
        with(four_groups(), |value| external(&mut value.destinations)),
        with(four_groups(), |value| external(&mut value.sources)),
        with(four_groups(), |value| value.sources.range = 4),
        with_areas(state(1), areas(15, &[5, 3])),
        with_areas(state(1), areas(2, &[1, 16])),
        with_areas(state(1), areas(14, &[1])),
        with_areas(state(1), areas(1, &[1, 1])),
        // Another message's type, with what INTERROGATE ACK alone has.
        with(state(1), |value| value.pdu = 3),
    ]
}

fn with(mut value: Value, change: impl Fn(&mut Value)) -> Value {
    change(&mut value);
    value
}

/// 1,001, accepted, with this activation type.
fn state(activation: u32) -> Value {
    Value {
        users: group(1, &[home(1001)]),
        result: 1,
        activation,
        ..of_type(9)
    }
}

fn failed(reason: u32) -> Value {
    Value {
        users: group(1, &[home(1001)]),
        reason,
        ..of_type(9)
    }
}

fn users(value: Value, users: FlatGroup) -> Value {
    Value { users, ..value }
}

fn areas(range: u32, some: &[u32]) -> FlatAreas {
    let mut areas = FlatAreas {
        range,
        ..FlatAreas::default()
    };
    areas.areas[..some.len()].copy_from_slice(some);
    areas
}

fn with_areas(value: Value, restricted: FlatAreas) -> Value {
    with(
        Value {
            restricted,
            ..value
        },
        |value| value.further[2] = true,
    )
}

/// The worked message of 236 bits.
fn four_groups() -> Value {
    let value = Value {
        option: true,
        dispatchers: group(1, &[home(1004)]),
        further: [true, true, true, false, false, false],
        services: [3, 0],
        sources: group(2, &[far(1001, 5), home(1004)]),
        destinations: range_of_4(),
        ..state(1)
    };
    with_areas(value, areas(3, &[1, 15, 0]))
}

/// Of 670 bits: 64 users with a mask, and lists of three of kind 2.
fn longest() -> Value {
    let three = || group(3, &[far(LARGEST, LARGEST), far(0, 0), far(1, LARGEST)]);
    let value = Value {
        option: true,
        dispatchers: three(),
        further: [true, true, true, false, false, false],
        interception: 1,
        services: [3, 3],
        sources: three(),
        destinations: three(),
        ..state(1)
    };
    let value = users(value, group(15, &[far(64, 9), far(127, 9)]));
    let every = Vec::from_iter(0..64);
    with_areas(masked(value, &every), areas(3, &[15, 15, 15]))
}
