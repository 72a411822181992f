//! Rows 38 to 64, of the messages about a waiting call: 38 to 49 are written, 50 and 51 try the
//! area's size, 52 to 64 are not valid.

use super::{far, home, of_type, with_cause, with_dispatcher, with_identifier};
use super::{Row, LARGEST, NARROW, WIDE};
use crate::message::Address;
use crate::value::Value;

pub fn rows() -> Vec<Row> {
    let mut rows = Vec::new();
    for value in written() {
        rows.push(Row { area: WIDE, value });
    }
    for area in [19, 18] {
        let value = seven_options();
        rows.push(Row { area, value });
    }
    for value in not_valid() {
        rows.push(Row {
            area: NARROW,
            value,
        });
    }
    rows
}

fn written() -> Vec<Value> {
    let numbers_of_0 = Value {
        further: [false, true, true, true, true, true],
        ..request(16_383, 31)
    };
    vec![
        request(5, 0),
        request(5, 2),
        seven_options(),
        last_option(),
        largest(),
        with_called(request(5, 16), home(7)),
        numbers_of_0,
        with_identifier(14, 5),
        with_identifier(14, 16_383),
        reject(5, 2),
        with_cause(18, 2),
        with_dispatcher(with_cause(18, 2), home(1001)),
    ]
}

fn not_valid() -> Vec<Value> {
    let mut calling_absent = seven_options();
    calling_absent.option = false;

    let mut called_absent = seven_options();
    called_absent.further[0] = false;

    let mut mni_too_wide = seven_options();
    mni_too_wide.mni = 1 << 24;

    let mut area_too_wide = seven_options();
    area_too_wide.areas[1] = 16;

    let mut service_too_wide = seven_options();
    service_too_wide.services[0] = 4;

    let mut service_absent = last_option();
    service_absent.services = [3, 3];

    let mut request_with_range = seven_options();
    request_with_range.users.range = 2;

    let external = Address {
        kind: 3,
        ..home(1004)
    };

    let mut cancel_with_cause = with_identifier(14, 5);
    cancel_with_cause.cause = 2;

    let mut rejected_with_identifier = with_cause(18, 2);
    rejected_with_identifier.identifier = 5;

    let mut accept_with_mark = with_identifier(12, 5);
    accept_with_mark.further[1] = true;

    vec![
        calling_absent,
        called_absent,
        mni_too_wide,
        area_too_wide,
        service_too_wide,
        service_absent,
        request_with_range,
        with_called(request(5, 0), external),
        request(16_384, 0),
        reject(5, 32),
        cancel_with_cause,
        rejected_with_identifier,
        accept_with_mark,
    ]
}

fn request(identifier: u32, cause: u32) -> Value {
    Value {
        identifier,
        cause,
        ..of_type(11)
    }
}

fn reject(identifier: u32, cause: u32) -> Value {
    Value {
        identifier,
        cause,
        ..of_type(17)
    }
}

/// The value with a called address, and no other option with it.
fn with_called(mut value: Value, called: Address) -> Value {
    value.further[0] = true;
    value.users.addresses[1] = called;
    value
}

/// Calling 1,001, called 1,004 with extension 5, MNI 5, areas 1 and 2, services 1 and 2.
fn seven_options() -> Value {
    let mut value = Value {
        option: true,
        further: [true; 6],
        mni: 5,
        areas: [1, 2],
        services: [1, 2],
        ..request(5, 2)
    };
    value.users.addresses[0] = home(1001);
    value.users.addresses[1] = far(1004, 5);
    value
}

/// Only the called's service, 3.
fn last_option() -> Value {
    Value {
        further: [false, false, false, false, false, true],
        services: [0, 3],
        ..request(5, 0)
    }
}

/// The longest, of 174 bits.
fn largest() -> Value {
    let mut value = Value {
        option: true,
        further: [true; 6],
        mni: LARGEST,
        areas: [15, 15],
        services: [3, 3],
        ..request(16_383, 31)
    };
    value.users.addresses[0] = far(LARGEST, LARGEST);
    value.users.addresses[1] = far(LARGEST, LARGEST);
    value
}
