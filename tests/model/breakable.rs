//! All that a message can break off in, by type, element and part: what the generators aim at and
//! what `breaks` wants to see.

use crate::element::Element;
use crate::trail::{Part, OF_OPTIONS};

/// The type that is told of a message which breaks off before its type is known.
pub const NO_TYPE: u32 = 0;

/// Types that are carried, with their names.
pub const MESSAGES: [(u32, &str); 15] = [
    (2, "ACTIVATE"),
    (3, "ACTIVATE ACK"),
    (4, "DEACTIVATE"),
    (5, "DEACTIVATE ACK"),
    (8, "INTERROGATE"),
    (9, "INTERROGATE ACK"),
    (10, "INTERCEPTED"),
    (11, "REQUEST"),
    (12, "ACCEPT"),
    (13, "ACCEPTED"),
    (14, "CANCEL"),
    (15, "DIVERT"),
    (16, "DIVERTED"),
    (17, "REJECT"),
    (18, "REJECTED"),
];

/// An element and the parts of a message that it may stand in.
type Row = (Element, &'static [Part]);

const ONCE: &[Part] = &[Part::Once];
const OF_MASK: &[Part] = &[Part::WithoutMask, Part::BehindMask];
const USERS: &[Part] = &[
    Part::FirstUser,
    Part::LaterUser,
    Part::FromUser,
    Part::ToUser,
];
const USERS_AND_DISPATCHERS: &[Part] = &[
    Part::FirstUser,
    Part::LaterUser,
    Part::FromUser,
    Part::ToUser,
    Part::FirstDispatcher,
    Part::LaterDispatcher,
    Part::FromDispatcher,
    Part::ToDispatcher,
];
const OF_INTERROGATE_ACK: &[Part] = &[
    Part::FirstUser,
    Part::LaterUser,
    Part::FromUser,
    Part::ToUser,
    Part::FirstDispatcher,
    Part::LaterDispatcher,
    Part::FromDispatcher,
    Part::ToDispatcher,
    Part::FirstSource,
    Part::LaterSource,
    Part::FromSource,
    Part::ToSource,
    Part::FirstDestination,
    Part::LaterDestination,
    Part::FromDestination,
    Part::ToDestination,
];
const GROUPS: &[Part] = &[
    Part::Users,
    Part::Dispatchers,
    Part::Sources,
    Part::Destinations,
    Part::Areas,
];
const AREAS: &[Part] = &[
    Part::FirstArea,
    Part::LaterArea,
    Part::FromArea,
    Part::ToArea,
];
const FOUR_OPTIONS: &[Part] = &[Part::Option1, Part::Option2, Part::Option3, Part::Option4];
const PARTIES: &[Part] = &[Part::Option1, Part::Option2];

/// Each of them once.
pub fn places() -> Vec<(u32, Element, Part)> {
    let mut places = Vec::new();
    for (pdu_type, _) in [(NO_TYPE, "")].iter().chain(&MESSAGES) {
        for (element, parts) in rows(*pdu_type) {
            for part in *parts {
                places.push((*pdu_type, *element, *part));
            }
        }
    }
    places
}

/// What a message of the type can break off in, in the order of the elements' numbers.
pub fn rows(pdu_type: u32) -> &'static [Row] {
    match pdu_type {
        NO_TYPE => &[(Element::SsType, ONCE), (Element::PduType, ONCE)],
        2 => &[
            (Element::Range, &[Part::Users, Part::Dispatchers]),
            (Element::Kind, USERS_AND_DISPATCHERS),
            (Element::Ssi, USERS_AND_DISPATCHERS),
            (Element::Extension, USERS_AND_DISPATCHERS),
            (Element::OBit, ONCE),
            (Element::PBit, ONCE),
        ],
        3 | 5 => &[
            (Element::Range, &[Part::Users]),
            (Element::Kind, USERS),
            (Element::Ssi, USERS),
            (Element::Extension, USERS),
            (Element::MaskPresent, ONCE),
            (Element::Mask, &[Part::OfList, Part::OfRange]),
            (Element::Result, OF_MASK),
            (Element::Reason, OF_MASK),
        ],
        4 => &[
            (Element::Range, &[Part::Users]),
            (Element::Kind, USERS),
            (Element::Ssi, USERS),
            (Element::Extension, USERS),
        ],
        8 => &[
            (Element::Kind, ONCE),
            (Element::Ssi, ONCE),
            (Element::Extension, ONCE),
        ],
        9 => &[
            (Element::Range, GROUPS),
            (Element::Kind, OF_INTERROGATE_ACK),
            (Element::Ssi, OF_INTERROGATE_ACK),
            (Element::Extension, OF_INTERROGATE_ACK),
            (Element::MaskPresent, ONCE),
            (Element::Mask, &[Part::OfList, Part::OfRange]),
            (Element::Result, OF_MASK),
            (Element::Reason, OF_MASK),
            (Element::OBit, &[Part::Accepted, Part::NotAccepted]),
            (Element::PBit, FOUR_OPTIONS),
            (Element::Area, AREAS),
            (Element::BasicService, &[Part::OfCalled, Part::OfCalling]),
            (Element::ActivationType, ONCE),
            (Element::InterceptionType, ONCE),
        ],
        10 | 16 | 18 => &[
            (Element::Kind, ONCE),
            (Element::Ssi, ONCE),
            (Element::Extension, ONCE),
            (Element::Cause, ONCE),
            (Element::OBit, ONCE),
            (Element::PBit, ONCE),
        ],
        11 => &[
            (Element::Kind, PARTIES),
            (Element::Ssi, PARTIES),
            (Element::Extension, PARTIES),
            (Element::Cause, ONCE),
            (Element::Identifier, ONCE),
            (Element::OBit, ONCE),
            (Element::PBit, &OF_OPTIONS),
            (Element::Mni, &[Part::Option3]),
            (Element::Area, &[Part::Option4, Part::Option5]),
            (Element::BasicService, &[Part::Option6, Part::Option7]),
        ],
        12 | 14 | 15 => &[(Element::Identifier, ONCE)],
        17 => &[(Element::Cause, ONCE), (Element::Identifier, ONCE)],
        // ACCEPTED has nothing behind its header.
        _ => &[],
    }
}
