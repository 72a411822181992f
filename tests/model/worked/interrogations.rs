//! The messages worked out for request (viii), by hand where the page has none.

use super::{at_home, broke_off, Case};
use crate::element::Element;
use crate::interrogate_ack::{Areas, Groups, InterrogateAck, Interrogation};
use crate::message::{Address, Group, Message};
use crate::refusal::Refusal::Number;

const NOT_ACCEPTED: Interrogation = Interrogation::NotAccepted { reason: 1 };

/// INTERROGATE ACK, and lengths and contents that are refused. All of them are about 1,001.
pub fn interrogation_cases() -> Vec<Case> {
    let case = |hex, length, expected| Case {
        name: "(viii)",
        hex,
        length,
        expected,
    };
    let ack = |result, groups| {
        Ok(Message::InterrogateAck(InterrogateAck {
            users: Group {
                range: 1,
                addresses: vec![at_home(1001)],
            },
            mask: None,
            result,
            groups,
        }))
    };
    let state = |activation, calling_service| Interrogation::Accepted {
        activation,
        interception: 0,
        called_service: 0,
        calling_service,
    };
    let no_group = Groups::default;
    let from_to = |first, last| Groups {
        areas: Some(Areas {
            range: 15,
            areas: vec![first, last],
        }),
        ..no_group()
    };
    let four = "25228001F4B1E28001F64A0003E90000054000FB3E8001F4A0007D931F00";
    vec![
        case("25228001F4B000", 50, ack(state(1, 0), no_group())),
        case("25228001F4A000", 50, ack(state(0, 0), no_group())),
        case("25228001F484", 47, ack(NOT_ACCEPTED, no_group())),
        case("25228001F484", 46, broke_off(46, Element::OBit)),
        case("25228001F4863E6A", 63, ack(NOT_ACCEPTED, from_to(3, 5))),
        case(four, 236, ack(state(1, 3), four_groups())),
        // One area twice, and all sixteen of them; falling.
        case("25228001F4863EAA", 63, ack(NOT_ACCEPTED, from_to(5, 5))),
        case("25228001F4863E1E", 63, ack(NOT_ACCEPTED, from_to(0, 15))),
        case("25228001F4863EA6", 63, Err(Number(11))),
        case("25228001F4863EA6", 62, broke_off(59, Element::Area)),
        // Four P-bits of 0, and one fewer.
        case("25228001F48600", 51, Err(Number(12))),
        case("25228001F48600", 50, broke_off(50, Element::PBit)),
        // Kind 3 of a dispatcher, of a source and of a destination; kind 0 of a destination.
        case("25228001F4871C", 54, Err(Number(10))),
        case("25228001F4868E", 55, Err(Number(10))),
        case("25228001F48647", 56, Err(Number(27))),
        case("25228001F48647", 55, broke_off(54, Element::Kind)),
        case("25228001F48644", 56, Err(Number(10))),
        case("25228001F4B000", 51, Err(Number(13))),
        case("25228001F484", 48, Err(Number(13))),
    ]
}

/// Dispatcher 1,004; sources 1,001 with extension 5 and 1,004; destinations 1,001 to 1,004; areas
/// 1, 15 and 0.
fn four_groups() -> Groups {
    let group = |range, addresses: &[Address]| {
        Some(Group {
            range,
            addresses: addresses.to_vec(),
        })
    };
    let far = Address {
        kind: 2,
        ssi: 1001,
        extension: 5,
    };
    Groups {
        dispatchers: group(1, &[at_home(1004)]),
        sources: group(2, &[far, at_home(1004)]),
        destinations: group(15, &[at_home(1001), at_home(1004)]),
        areas: Some(Areas {
            range: 3,
            areas: vec![1, 15, 0],
        }),
    }
}
