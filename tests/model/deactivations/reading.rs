//! Why a DEACTIVATE or a DEACTIVATE ACK was not read, told from its bits once more.

use super::events::Event;
use crate::bits::Bits;
use crate::element::Element;
use crate::message::{meaning_of, read_address, Address};
use crate::profile::{Meaning, Profile};
use crate::refusal::Refusal::{self, BrokeOff, Number};

/// What to count of a message of type 4 or 5 that was refused so; its header is good.
pub fn not_read(
    profile: &Profile,
    bytes: &[u8],
    length: usize,
    pdu_type: u32,
    refusal: Refusal,
) -> Option<Event> {
    let ack = pdu_type == 5;
    let of_either = |request, of_ack| Some(if ack { of_ack } else { request });
    match refusal {
        BrokeOff { element, .. } if ack => Some(cut_ack(element)),
        BrokeOff { .. } => Some(Event::Request4),
        Number(9) => match meaning_of(profile, range(bytes, length)?) {
            Meaning::NoIdentity => of_either(Event::Request9None, Event::AckRead9None),
            _ => of_either(Event::Request9Reserved, Event::AckRead9Reserved),
        },
        Number(10) => match refused_kind(bytes, length)? {
            0 => of_either(Event::Request10Kind0, Event::AckRead10Kind0),
            _ => of_either(Event::Request10Kind3, Event::AckRead10Kind3),
        },
        Number(11) => {
            let (first, last) = ends(bytes, length)?;
            if first.kind != last.kind {
                of_either(Event::Request11Kind, Event::AckRead11Kind)
            } else if first.extension != last.extension {
                of_either(Event::Request11Extension, Event::AckRead11Extension)
            } else if first.ssi > last.ssi {
                of_either(Event::Request11Falls, Event::AckRead11Falls)
            } else {
                of_either(Event::Request11Spans, Event::AckRead11Spans)
            }
        }
        Number(13) => of_either(Event::Request13, Event::AckRead13),
        _ => None,
    }
}

/// At which of an ACK's elements the bits end.
fn cut_ack(element: Element) -> Event {
    match element {
        Element::MaskPresent | Element::Result => Event::AckRead4Result,
        Element::Mask => Event::AckRead4Mask,
        Element::Reason => Event::AckRead4Reason,
        _ => Event::AckRead4Users,
    }
}

/// The kind at which reading stopped: the first that is 0 or 3.
fn refused_kind(bytes: &[u8], length: usize) -> Option<u32> {
    let mut bits = behind_range(bytes, length)?;
    loop {
        let mut before = bits.clone();
        if read_address(&mut bits) == Err(Number(10)) {
            return before.take(Element::Kind, 2).ok();
        }
        if bits.left() == 0 {
            return None;
        }
    }
}

fn ends(bytes: &[u8], length: usize) -> Option<(Address, Address)> {
    let mut bits = behind_range(bytes, length)?;
    Some((read_address(&mut bits).ok()?, read_address(&mut bits).ok()?))
}

fn range(bytes: &[u8], length: usize) -> Option<u32> {
    behind_header(bytes, length)?.take(Element::Range, 4).ok()
}

fn behind_range(bytes: &[u8], length: usize) -> Option<Bits<'_>> {
    let mut bits = behind_header(bytes, length)?;
    bits.take(Element::Range, 4).ok()?;
    Some(bits)
}

fn behind_header(bytes: &[u8], length: usize) -> Option<Bits<'_>> {
    let mut bits = Bits::new(bytes, length);
    bits.take(Element::SsType, 6).ok()?;
    bits.take(Element::PduType, 5).ok()?;
    Some(bits)
}
