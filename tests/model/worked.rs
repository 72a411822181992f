//! Document 01's worked cases that need reading alone: 1 to 8, 10, and the listing example; and
//! the messages worked out for requests (iv), (i) and (viii). Bytes, bit lengths and results are the
//! papers', typed in here; nothing is computed by `read`.

mod interrogations;

pub use interrogations::interrogation_cases;

use crate::ack::{Ack, AckResult};
use crate::element::Element;
use crate::message::{Address, Group, Message};
use crate::refusal::Refusal::{self, Number};
use crate::request::Options;
use crate::write::elements;

pub struct Case {
    /// The case's number in document 01, or the request in document 02.
    pub name: &'static str,
    pub hex: &'static str,
    pub length: usize,
    pub expected: Result<Message, Refusal>,
}

pub const LISTING_INPUT: &str = "11 25A0\n12 25A0\n25 25800280";
pub const LISTING_OUTPUT: &str = "1 ACCEPTED\n2 refused 13\n3 ACCEPT\n";

/// Cases 1 to 8; case 1 has three bit lengths.
pub fn cases() -> Vec<Case> {
    let case = |name, hex, length, expected| Case {
        name,
        hex,
        length,
        expected,
    };
    vec![
        case("1", "25A0", 11, Ok(Message::Accepted)),
        case("1", "25A0", 12, Err(Number(13))),
        case("1", "25A0", 10, broke_off(6, Element::PduType)),
        case("2", "25800280", 25, Ok(Message::Accept { identifier: 5 })),
        case(
            "3",
            "25FFFF80",
            25,
            Ok(Message::Divert { identifier: 16_383 }),
        ),
        case(
            "4",
            "254000",
            17,
            Ok(Message::Intercepted {
                cause: 0,
                dispatcher: None,
            }),
        ),
        case(
            "5",
            "260000",
            17,
            Ok(Message::Diverted {
                cause: 0,
                dispatcher: None,
            }),
        ),
        case(
            "6",
            "2542D0000010",
            44,
            Ok(Message::Intercepted {
                cause: 2,
                dispatcher: Some(at_home(1)),
            }),
        ),
        case(
            "7",
            "2508001F48",
            37,
            Ok(Message::Interrogate {
                user: at_home(1001),
            }),
        ),
        case("8", "245E8001F4A0007D80", 68, Ok(activate_range(4))),
    ]
}

/// REQUEST, CANCEL, REJECT and REJECTED, and for some of them a length that isn't theirs.
pub fn request_cases() -> Vec<Case> {
    let case = |hex, length, expected| Case {
        name: "(iv)",
        hex,
        length,
        expected,
    };
    let request = |cause, options| {
        Ok(Message::Request {
            identifier: 5,
            cause,
            options,
        })
    };
    let seven_options = Options {
        calling: Some(at_home(1001)),
        called: Some(Address {
            kind: 2,
            ssi: 1004,
            extension: 5,
        }),
        mni: Some(5),
        calling_area: Some(1),
        called_area: Some(2),
        calling_service: Some(1),
        called_service: Some(2),
    };
    let last_option = Options {
        called_service: Some(3),
        ..Options::default()
    };
    let rejected = |dispatcher| {
        Ok(Message::Rejected {
            cause: 2,
            dispatcher,
        })
    };
    let with_seven = "2560028B4000FA70001F6000002C00001632B8";
    vec![
        case("25600280", 31, request(0, Options::default())),
        case("25600288", 31, request(2, Options::default())),
        case(with_seven, 150, request(2, seven_options)),
        case("2560028207", 40, request(0, last_option)),
        case("25C00280", 25, Ok(Message::Cancel { identifier: 5 })),
        case(
            "26200288",
            30,
            Ok(Message::Reject {
                identifier: 5,
                cause: 2,
            }),
        ),
        case("264200", 17, rejected(None)),
        case("2642D0003E90", 44, rejected(Some(at_home(1001)))),
        // REQUEST with an O-bit of 1: seven P-bits of 0, and one P-bit fewer.
        case("2560028200", 38, Err(Number(12))),
        case("2560028200", 37, broke_off(37, Element::PBit)),
        // A calling and then a called address of kinds 0 and 3.
        case("256002830000", 41, Err(Number(10))),
        case("25600283C000", 41, Err(Number(10))),
        case("256002828000", 41, Err(Number(10))),
        case("25600282E000", 41, Err(Number(10))),
        case("25C00280", 26, Err(Number(13))),
        case("26200288", 31, Err(Number(13))),
    ]
}

/// DEACTIVATE of case 8's users and the three ACKs that case 9's records give; and lengths that
/// aren't theirs.
pub fn deactivation_cases() -> Vec<Case> {
    let case = |hex, length, expected| Case {
        name: "(i)",
        hex,
        length,
        expected,
    };
    let ack = |mask: [bool; 4], result| {
        Ok(Message::DeactivateAck(Ack {
            users: users_of_case_8(),
            mask: Some(mask.to_vec()),
            result,
        }))
    };
    let deactivate = Message::Deactivate {
        users: users_of_case_8(),
    };
    let accepted = AckResult::Accepted;
    let (no_record, other_post) = (
        AckResult::NotAccepted { reason: 1 },
        AckResult::NotAccepted { reason: 2 },
    );
    vec![
        case("249E8001F4A0007D80", 67, Ok(deactivate)),
        case("249E8001F4A0007D80", 68, Err(Number(13))),
        case("249E8001F4A0007D80", 66, broke_off(43, Element::Ssi)),
        case(
            "24BE8001F4A0007D9C80",
            73,
            ack([true, true, false, false], accepted),
        ),
        case(
            "24BE8001F4A0007D9201",
            80,
            ack([false, false, true, false], no_record),
        ),
        case(
            "24BE8001F4A0007D9102",
            80,
            ack([false, false, false, true], other_post),
        ),
        // An ACK's reason cut by one bit, and a bit behind the result that says accepted.
        case("24BE8001F4A0007D9201", 79, broke_off(73, Element::Reason)),
        case("24BE8001F4A0007D9C80", 74, Err(Number(13))),
    ]
}

fn users_of_case_8() -> Group {
    Group {
        range: 15,
        addresses: vec![at_home(1001), at_home(1004)],
    }
}

fn broke_off(position: usize, element: Element) -> Result<Message, Refusal> {
    Err(Refusal::BrokeOff { position, element })
}

/// An address of kind 1.
pub fn at_home(ssi: u32) -> Address {
    Address {
        kind: 1,
        ssi,
        extension: 0,
    }
}

/// Case 8 with `count` identities from 1,001 on; case 10 asks for 64, 65 and 1.
pub fn activate_range(count: u32) -> Message {
    Message::Activate {
        users: Group {
            range: 15,
            addresses: vec![at_home(1001), at_home(1000 + count)],
        },
        dispatchers: None,
    }
}

/// The bits of the same message, element by element as the table of layouts has them.
pub fn activate_range_bits(count: u32) -> Vec<bool> {
    elements(&[
        (9, 6),
        (2, 5),
        (15, 4),
        (1, 2),
        (1001, 24),
        (1, 2),
        (1000 + count, 24),
        (0, 1),
    ])
}
