//! A cursor over the bits of one message; the first bit is the top bit of byte 0.
//! It takes one bit at a time: slow, and simple enough to be checked by eye.

use crate::element::Element;
use crate::refusal::Refusal;

#[derive(Clone)]
pub struct Bits<'a> {
    bytes: &'a [u8],
    length: usize,
    next: usize,
}

impl<'a> Bits<'a> {
    /// The bytes must hold `length` bits; a caller that isn't sure gives refusal 3 first.
    pub fn new(bytes: &'a [u8], length: usize) -> Self {
        Bits {
            bytes,
            length,
            next: 0,
        }
    }

    pub fn left(&self) -> usize {
        self.length - self.next
    }

    /// One element of `width` bits. Where it reaches past the bit length it is refused whole, with
    /// its name and with the bit at which it would begin.
    pub fn take_bits(&mut self, element: Element, width: usize) -> Result<Vec<bool>, Refusal> {
        if width > self.left() {
            let position = self.next;
            return Err(Refusal::BrokeOff { position, element });
        }
        let mut taken = Vec::new();
        for _ in 0..width {
            taken.push(self.take_one());
        }
        Ok(taken)
    }

    /// One element read as a number, most significant bit first.
    pub fn take(&mut self, element: Element, width: usize) -> Result<u32, Refusal> {
        let mut number = 0;
        for bit in self.take_bits(element, width)? {
            number = 2 * number + u32::from(bit);
        }
        Ok(number)
    }

    fn take_one(&mut self) -> bool {
        let byte = self.bytes[self.next / 8];
        let from_top = self.next % 8;
        self.next += 1;
        (byte >> (7 - from_top)) & 1 == 1
    }
}
