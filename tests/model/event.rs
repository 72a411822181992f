//! How things are named that are counted or checked one by one, and the type of a message whose
//! content may be faulty.

use crate::bits::Bits;
use crate::element::Element;
use crate::profile::Profile;

/// Names each thing once: for the enum that is counted by, and for the table that is printed.
macro_rules! named {
    ($kind:ident, $all:ident: $($name:ident: $words:literal,)*) => {
        #[derive(Clone, Copy, PartialEq, Eq, PartialOrd, Ord)]
        pub enum $kind {
            $($name),*
        }

        pub const $all: &[($kind, &str)] = &[$(($kind::$name, $words)),*];
    };
}

pub(crate) use named;

/// The SS type and the PDU type of a message whose header is whole.
pub fn header_of(bytes: &[u8], length: usize) -> Option<(u32, u32)> {
    if length > 8 * bytes.len() {
        return None;
    }
    let mut header = Bits::new(bytes, length);
    let ss_type = header.take(Element::SsType, 6).ok()?;
    Some((ss_type, header.take(Element::PduType, 5).ok()?))
}

/// The type of a message whose header is whole and good.
pub fn pdu_type_of(profile: &Profile, bytes: &[u8], length: usize) -> Option<u32> {
    match header_of(bytes, length)? {
        (ss_type, pdu_type) if ss_type == profile.ss_type => Some(pdu_type),
        _ => None,
    }
}
