//! Rows 65 to 108, of DEACTIVATE and DEACTIVATE ACK: 65 to 78 are written, 79 to 82 try the area's
//! size, 83 to 108 are not valid.

use super::{accepted, failed, far, group, home, masked, of_type, range_of_4, with_dispatchers};
use super::{Row, LARGEST, NARROW, WIDE};
use crate::message::Address;
use crate::value::{FlatGroup, Value};

pub fn rows() -> Vec<Row> {
    let mut rows = Vec::new();
    for value in requests().into_iter().chain(acks()) {
        rows.push(Row { area: WIDE, value });
    }
    for (area, value) in [
        (9, deactivate(range_of_4())),
        (8, deactivate(range_of_4())),
        (10, two_of_four()),
        (9, two_of_four()),
    ] {
        rows.push(Row { area, value });
    }
    for value in not_a_request().into_iter().chain(not_an_ack()) {
        rows.push(Row {
            area: NARROW,
            value,
        });
    }
    rows
}

fn requests() -> Vec<Value> {
    vec![
        deactivate(range_of_4()),
        deactivate(group(1, &[home(1001)])),
        deactivate(both_kinds()),
        deactivate(group(3, &[far(LARGEST, LARGEST), home(0), far(1, 0)])),
        deactivate(range_of_64()),
        deactivate(group(15, &[home(7), home(7)])),
    ]
}

fn acks() -> Vec<Value> {
    vec![
        two_of_four(),
        masked(ack(failed(range_of_4(), 1)), &[2]),
        masked(ack(failed(range_of_4(), 2)), &[3]),
        ack(accepted(range_of_4())),
        ack(failed(group(3, &[home(1), home(1), far(2, 4)]), 127)),
        masked(
            ack(failed(range_of_64(), 2)),
            &Vec::from_iter((0..64).step_by(2)),
        ),
        masked(ack(failed(both_kinds(), 0)), &[]),
        masked(ack(accepted(group(1, &[far(LARGEST, 0)]))), &[0]),
    ]
}

fn not_a_request() -> Vec<Value> {
    let good = || deactivate(range_of_4());
    let nobody = group(0, &[]);
    let dispatcher = group(1, &[home(9)]);

    let mut option_absent = with_dispatchers(good(), dispatcher.clone());
    option_absent.option = false;

    let mut beyond_the_count = deactivate(group(1, &[home(1001)]));
    beyond_the_count.users.addresses[1] = home(2);

    let external = Address {
        kind: 3,
        ..home(1001)
    };
    let home_with_extension = Address {
        extension: 77,
        ..home(1001)
    };
    let with = |change: fn(&mut Value)| {
        let mut value = good();
        change(&mut value);
        value
    };

    vec![
        with_dispatchers(good(), dispatcher),
        with_dispatchers(good(), nobody.clone()),
        option_absent,
        masked(good(), &[0, 1]),
        masked(good(), &[]),
        with(|value| value.result = 1),
        with(|value| value.reason = 1),
        with(|value| value.cause = 2),
        with(|value| value.identifier = 5),
        with(|value| value.further[0] = true),
        beyond_the_count,
        deactivate(group(4, &[])),
        deactivate(nobody),
        deactivate(group(15, &[home(1004), home(1001)])),
        deactivate(group(15, &[home(1), home(65)])),
        deactivate(group(15, &[far(7, 5), far(8, 6)])),
        deactivate(group(15, &[home(7), far(8, 0)])),
        deactivate(group(1, &[external])),
        deactivate(group(1, &[home_with_extension])),
        // A type that is still not carried, with a DEACTIVATE's users.
        with(|value| value.pdu = 6),
    ]
}

fn not_an_ack() -> Vec<Value> {
    let mut mask_absent = masked(ack(accepted(range_of_4())), &[0]);
    mask_absent.masked = false;

    let mut accepted_with_reason = ack(accepted(range_of_4()));
    accepted_with_reason.reason = 1;

    let mut no_result = two_of_four();
    no_result.result = 2;

    vec![
        masked(ack(accepted(range_of_4())), &[0, 1, 4]),
        mask_absent,
        accepted_with_reason,
        masked(ack(failed(range_of_4(), 128)), &[2]),
        no_result,
        with_dispatchers(ack(accepted(range_of_4())), group(1, &[home(9)])),
    ]
}

fn deactivate(users: FlatGroup) -> Value {
    Value {
        users,
        ..of_type(4)
    }
}

/// The same of type 5 as the ACTIVATE ACK given.
fn ack(activate_ack: Value) -> Value {
    Value {
        pdu: 5,
        ..activate_ack
    }
}

/// The worked case's first ACK: mask 1100, accepted.
fn two_of_four() -> Value {
    masked(ack(accepted(range_of_4())), &[0, 1])
}

fn both_kinds() -> FlatGroup {
    group(2, &[home(1001), far(7, 5)])
}

fn range_of_64() -> FlatGroup {
    group(15, &[far(64, 9), far(127, 9)])
}
