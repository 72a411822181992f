//! What a call gives instead of an answer: a number of document 01's table of refusals, or one that
//! a request of document 02 adds to it, and with number 4 where the message broke off.

use crate::element::Element;

#[derive(Clone, Copy, PartialEq, Eq, Debug)]
pub enum Refusal {
    /// Number 4: the element that reaches past the bit length, and the bit, from 0, at which it
    /// begins.
    BrokeOff { position: usize, element: Element },
    /// Every other refusal, which is its number alone.
    Number(u8),
}

impl Refusal {
    pub fn number(self) -> u8 {
        match self {
            Refusal::BrokeOff { .. } => 4,
            Refusal::Number(number) => number,
        }
    }
}
