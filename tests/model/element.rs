//! The elements that a message can break off in, by number and by name.
//! Each has one name wherever it stands: an area is the calling's or the called's, a cause is that
//! of an interception or of a rejection.

/// In the order of their numbers, which start at 1. 20 is for a message not carried yet.
#[derive(Clone, Copy, PartialEq, Eq, PartialOrd, Ord, Debug)]
pub enum Element {
    SsType = 1,
    PduType,
    Range,
    Kind,
    Ssi,
    Extension,
    MaskPresent,
    /// All of its bits are one element.
    Mask,
    Result,
    Reason,
    Cause,
    Identifier,
    OBit,
    PBit,
    Mni,
    Area,
    BasicService,
    ActivationType,
    InterceptionType,
}

/// The name of element n is at n - 1.
pub const NAMES: [&str; 19] = [
    "ss-type",
    "pdu-type",
    "range",
    "kind",
    "ssi",
    "extension",
    "mask-present",
    "mask",
    "result",
    "reason",
    "cause",
    "identifier",
    "o-bit",
    "p-bit",
    "mni",
    "area",
    "basic-service",
    "activation-type",
    "interception-type",
];

impl Element {
    pub fn number(self) -> u32 {
        self as u32
    }

    pub fn name(self) -> &'static str {
        NAMES[self as usize - 1]
    }
}
