//! The elements along the bits of a message, laid out once more from the tables of documents 01 and
//! 001, item by item; the reader isn't asked. So where a message breaks off is told a second way,
//! and which of several like elements it was.

use crate::element::Element;
use crate::event::named;
use crate::message::MOST_IDENTITIES;
use crate::profile::{Meaning, Profile};

/// An element as it lies in a message.
#[derive(Clone, Copy)]
pub struct Span {
    pub part: Part,
    pub element: Element,
    pub begin: usize,
    pub width: usize,
}

impl Span {
    pub fn reaches_past(&self, length: usize) -> bool {
        self.begin + self.width > length
    }
}

named! { Part, PARTS:
    Once: "",
    Users: "of the users",
    FirstUser: "first in a list of users",
    LaterUser: "later in a list of users",
    FromUser: "first of a range of users",
    ToUser: "last of a range of users",
    Dispatchers: "of the dispatchers",
    FirstDispatcher: "first in a list of dispatchers",
    LaterDispatcher: "later in a list of dispatchers",
    FromDispatcher: "first of a range of dispatchers",
    ToDispatcher: "last of a range of dispatchers",
    Sources: "of the sources",
    FirstSource: "first in a list of sources",
    LaterSource: "later in a list of sources",
    FromSource: "first of a range of sources",
    ToSource: "last of a range of sources",
    Destinations: "of the destinations",
    FirstDestination: "first in a list of destinations",
    LaterDestination: "later in a list of destinations",
    FromDestination: "first of a range of destinations",
    ToDestination: "last of a range of destinations",
    Areas: "of the areas",
    FirstArea: "first in a list of areas",
    LaterArea: "later in a list of areas",
    FromArea: "first of a range of areas",
    ToArea: "last of a range of areas",
    OfList: "of a list",
    OfRange: "of a range",
    WithoutMask: "without a mask",
    BehindMask: "behind a mask",
    OfCalled: "of the called",
    OfCalling: "of the calling",
    Accepted: "behind accepted",
    NotAccepted: "behind not accepted",
    Option1: "option 1",
    Option2: "option 2",
    Option3: "option 3",
    Option4: "option 4",
    Option5: "option 5",
    Option6: "option 6",
    Option7: "option 7",
}

impl Part {
    pub fn words(self) -> &'static str {
        PARTS[self as usize].1
    }
}

/// Where a range's addresses lie: the first in a list, the later ones, first and last of a range.
const OF_USERS: [Part; 4] = [
    Part::FirstUser,
    Part::LaterUser,
    Part::FromUser,
    Part::ToUser,
];
const OF_DISPATCHERS: [Part; 4] = [
    Part::FirstDispatcher,
    Part::LaterDispatcher,
    Part::FromDispatcher,
    Part::ToDispatcher,
];
const OF_SOURCES: [Part; 4] = [
    Part::FirstSource,
    Part::LaterSource,
    Part::FromSource,
    Part::ToSource,
];
const OF_DESTINATIONS: [Part; 4] = [
    Part::FirstDestination,
    Part::LaterDestination,
    Part::FromDestination,
    Part::ToDestination,
];
pub const OF_OPTIONS: [Part; 7] = [
    Part::Option1,
    Part::Option2,
    Part::Option3,
    Part::Option4,
    Part::Option5,
    Part::Option6,
    Part::Option7,
];

/// What the tables name in a row of their own.
enum Item {
    Field(Element, usize),
    Address,
    Users,
    Dispatchers,
    Sources,
    Destinations,
    Areas,
    Mask,
    Result,
    /// The result of an interrogation, and what belongs to it.
    Interrogation,
    /// One O-bit, and a P-bit before each.
    Options(&'static [Item]),
}

const IDENTIFIER: Item = Item::Field(Element::Identifier, 14);
const CAUSE: Item = Item::Field(Element::Cause, 5);

/// What follows the header.
fn items(pdu_type: u32) -> &'static [Item] {
    match pdu_type {
        2 => &[Item::Users, Item::Options(&[Item::Dispatchers])],
        3 | 5 => &[Item::Users, Item::Mask, Item::Result],
        4 => &[Item::Users],
        8 => &[Item::Address],
        9 => &[
            Item::Users,
            Item::Mask,
            Item::Interrogation,
            Item::Options(&[
                Item::Dispatchers,
                Item::Sources,
                Item::Destinations,
                Item::Areas,
            ]),
        ],
        10 | 16 | 18 => &[CAUSE, Item::Options(&[Item::Address])],
        11 => &[
            IDENTIFIER,
            CAUSE,
            Item::Options(&[
                Item::Address,
                Item::Address,
                Item::Field(Element::Mni, 24),
                Item::Field(Element::Area, 4),
                Item::Field(Element::Area, 4),
                Item::Field(Element::BasicService, 2),
                Item::Field(Element::BasicService, 2),
            ]),
        ],
        12 | 14 | 15 => &[IDENTIFIER],
        17 => &[IDENTIFIER, CAUSE],
        // ACCEPTED has nothing more, and what isn't carried is not looked at.
        _ => &[],
    }
}

/// The elements in their order: up to the one that reaches past the length, or the one whose
/// content is refused, or the message's last.
pub fn trail(profile: &Profile, bytes: &[u8], length: usize) -> Vec<Span> {
    let mut walk = Walk {
        profile,
        bytes,
        length,
        spans: Vec::new(),
        identities: 0,
        of_mask: Part::OfList,
        masked: false,
        of_o_bit: Part::Once,
    };
    // Where the walk stops is what the spans say.
    let _ = walk.message();
    walk.spans
}

struct Walk<'a> {
    profile: &'a Profile,
    bytes: &'a [u8],
    length: usize,
    spans: Vec<Span>,
    /// Of the last range, as the mask counts them.
    identities: usize,
    of_mask: Part,
    masked: bool,
    of_o_bit: Part,
}

impl Walk<'_> {
    /// Nothing, here and below, where the walk stops.
    fn message(&mut self) -> Option<()> {
        let ss_type = self.pass(Part::Once, Element::SsType, 6)?;
        let pdu_type = self.pass(Part::Once, Element::PduType, 5)?;
        if ss_type != self.profile.ss_type {
            return None;
        }
        for item in items(pdu_type) {
            self.item(item, Part::Once)?;
        }
        Some(())
    }

    fn item(&mut self, item: &Item, part: Part) -> Option<()> {
        match item {
            Item::Field(element, width) => self.pass(part, *element, *width).map(|_| ()),
            Item::Address => self.address(part).map(|_| ()),
            Item::Users => {
                let addresses = self.group(Part::Users, OF_USERS)?;
                // "None" is for all but the users.
                (addresses > 0).then_some(())
            }
            Item::Dispatchers => self.group(Part::Dispatchers, OF_DISPATCHERS).map(|_| ()),
            Item::Sources => self.group(Part::Sources, OF_SOURCES).map(|_| ()),
            Item::Destinations => self.group(Part::Destinations, OF_DESTINATIONS).map(|_| ()),
            Item::Areas => self.areas(),
            Item::Mask => {
                self.masked = self.pass(Part::Once, Element::MaskPresent, 1)? == 1;
                if self.masked {
                    self.pass(self.of_mask, Element::Mask, self.identities)?;
                }
                Some(())
            }
            Item::Result => {
                let part = self.of_result();
                if self.pass(part, Element::Result, 1)? == 0 {
                    self.pass(part, Element::Reason, 7)?;
                }
                Some(())
            }
            Item::Interrogation => {
                let part = self.of_result();
                if self.pass(part, Element::Result, 1)? == 0 {
                    self.of_o_bit = Part::NotAccepted;
                    self.pass(part, Element::Reason, 3)?;
                } else {
                    self.of_o_bit = Part::Accepted;
                    self.pass(Part::Once, Element::ActivationType, 1)?;
                    self.pass(Part::Once, Element::InterceptionType, 1)?;
                    self.pass(Part::OfCalled, Element::BasicService, 2)?;
                    self.pass(Part::OfCalling, Element::BasicService, 2)?;
                }
                Some(())
            }
            Item::Options(options) => self.options(options),
        }
    }

    fn of_result(&self) -> Part {
        if self.masked {
            Part::BehindMask
        } else {
            Part::WithoutMask
        }
    }

    fn options(&mut self, options: &[Item]) -> Option<()> {
        if self.pass(self.of_o_bit, Element::OBit, 1)? == 0 {
            return Some(());
        }
        let mut some_there = false;
        for (number, option) in options.iter().enumerate() {
            let part = match options.len() {
                1 => Part::Once,
                _ => OF_OPTIONS[number],
            };
            if self.pass(part, Element::PBit, 1)? == 1 {
                some_there = true;
                self.item(option, part)?;
            }
        }
        some_there.then_some(())
    }

    /// How many addresses a range number brings.
    fn group(&mut self, of_range: Part, of_addresses: [Part; 4]) -> Option<usize> {
        let [first, later, from, to] = of_addresses;
        let range = self.pass(of_range, Element::Range, 4)?;
        match self.profile.meanings[range as usize] {
            Meaning::Reserved => None,
            Meaning::NoIdentity => Some(0),
            Meaning::List(count) => {
                self.address(first)?;
                for _ in 1..count {
                    self.address(later)?;
                }
                self.identities = usize::from(count);
                self.of_mask = Part::OfList;
                Some(self.identities)
            }
            Meaning::FirstAndLast => {
                let (kind, lowest, extension) = self.address(from)?;
                let (last_kind, highest, last_extension) = self.address(to)?;
                let identities = highest.checked_sub(lowest)? + 1;
                if (kind, extension) != (last_kind, last_extension) || identities > MOST_IDENTITIES
                {
                    return None;
                }
                self.identities = identities as usize;
                self.of_mask = Part::OfRange;
                Some(2)
            }
        }
    }

    fn areas(&mut self) -> Option<()> {
        let range = self.pass(Part::Areas, Element::Range, 4)?;
        match self.profile.meanings[range as usize] {
            Meaning::Reserved => None,
            Meaning::NoIdentity => Some(()),
            Meaning::List(count) => {
                self.pass(Part::FirstArea, Element::Area, 4)?;
                for _ in 1..count {
                    self.pass(Part::LaterArea, Element::Area, 4)?;
                }
                Some(())
            }
            Meaning::FirstAndLast => {
                let lowest = self.pass(Part::FromArea, Element::Area, 4)?;
                let highest = self.pass(Part::ToArea, Element::Area, 4)?;
                (lowest <= highest).then_some(())
            }
        }
    }

    /// Kind, SSI and extension.
    fn address(&mut self, part: Part) -> Option<(u32, u32, u32)> {
        let kind = self.pass(part, Element::Kind, 2)?;
        match kind {
            1 => Some((1, self.pass(part, Element::Ssi, 24)?, 0)),
            2 => {
                let ssi = self.pass(part, Element::Ssi, 24)?;
                Some((2, ssi, self.pass(part, Element::Extension, 24)?))
            }
            _ => None,
        }
    }

    /// The number that the element holds; of a mask, which may be wider, whatever 32 bits show.
    fn pass(&mut self, part: Part, element: Element, width: usize) -> Option<u32> {
        let begin = self.spans.last().map_or(0, |last| last.begin + last.width);
        let span = Span {
            part,
            element,
            begin,
            width,
        };
        self.spans.push(span);
        if span.reaches_past(self.length) {
            return None;
        }
        let mut number = 0;
        for place in begin..begin + width {
            let bit = self.bytes[place / 8] >> (7 - place % 8) & 1;
            number = number << 1 | u32::from(bit);
        }
        Some(number)
    }
}
