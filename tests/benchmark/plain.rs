//! A plain reader, as one writes it without a thought of speed and without waste: one bit at a
//! time.

use super::elements::put;
use super::{Address, Refusal, Value, KIND, MASK};

pub struct Bits<'a> {
    bytes: &'a [u8],
    length: usize,
    next: usize,
}

impl Bits<'_> {
    fn bit(&self, at: usize) -> u8 {
        self.bytes[at / 8] >> (7 - at % 8) & 1
    }
}

impl<'a> super::Bits<'a> for Bits<'a> {
    fn of(message: &'a [u8], length: usize) -> Self {
        Bits {
            bytes: message,
            length,
            next: 0,
        }
    }

    fn left(&self) -> usize {
        self.length - self.next
    }

    fn take(&mut self, width: usize) -> Result<u32, Refusal> {
        if width > self.left() {
            return Err(4);
        }
        let mut number = 0;
        for at in self.next..self.next + width {
            number = number << 1 | u32::from(self.bit(at));
        }
        self.next += width;
        Ok(number)
    }

    fn read_mask(&mut self, identities: usize, value: &mut Value) -> Result<(), Refusal> {
        if identities > self.left() {
            return Err(4);
        }
        for identity in 0..identities {
            value[MASK + identity / 8] |= self.bit(self.next + identity) << (7 - identity % 8);
        }
        self.next += identities;
        Ok(())
    }

    fn read_address(
        &mut self,
        value: &mut Value,
        at: usize,
        external: Refusal,
    ) -> Result<Address, Refusal> {
        let kind = self.take(2)?;
        if kind == 0 {
            return Err(KIND);
        }
        if kind == 3 {
            return Err(external);
        }
        let ssi = self.take(24)?;
        let extension = if kind == 2 { self.take(24)? } else { 0 };
        put(value, at, kind, 1);
        put(value, at + 1, ssi, 3);
        put(value, at + 4, extension, 3);
        Ok(Address {
            kind,
            ssi,
            extension,
        })
    }
}
