//! A reader by window, as one writes it who wants speed and keeps to safe Rust: the next 64 bits are
//! one number, which is loaded from eight bytes where they lie, and an address is cut from it whole.

use super::{Address, Refusal, Value, ADDRESS_BYTES, KIND, MASK, VALUE_BYTES};

pub struct Bits<'a> {
    /// The bytes that belong to the message whole.
    whole: &'a [u8],
    length: usize,
    next: usize,
    /// The last eight bytes, or all where there are fewer, and the place of their first bit.
    end: u64,
    end_at: usize,
}

impl Bits<'_> {
    /// The next bits from the top bit down, 57 of them or as many as are left; what stands behind
    /// them, and all where none is left, says nothing.
    #[inline(always)]
    fn window(&self) -> u64 {
        eight(self.whole, self.next).unwrap_or_else(|| self.last())
    }

    /// The same where fewer than eight whole bytes are there.
    #[inline(always)]
    fn last(&self) -> u64 {
        self.end.wrapping_shl((self.next - self.end_at) as u32)
    }
}

/// 57 bits or more from a position on, if eight bytes are there.
#[inline(always)]
fn eight(bytes: &[u8], position: usize) -> Option<u64> {
    let at = position / 8;
    let eight = bytes.get(at..at + 8)?.try_into().ok()?;
    Some(u64::from_be_bytes(eight) << (position % 8))
}

/// One to seven bytes from the top down: the first and the last four of them, or two, which may
/// overlap.
#[inline(always)]
fn few(bytes: &[u8]) -> u64 {
    let last = 64 - 8 * bytes.len();
    if bytes.len() >= 4 {
        four(bytes) << 32 | four(&bytes[bytes.len() - 4..]) << last
    } else if bytes.len() >= 2 {
        two(bytes) << 48 | two(&bytes[bytes.len() - 2..]) << last
    } else {
        u64::from(bytes[0]) << 56
    }
}

fn four(bytes: &[u8]) -> u64 {
    u64::from(u32::from_be_bytes([bytes[0], bytes[1], bytes[2], bytes[3]]))
}

fn two(bytes: &[u8]) -> u64 {
    u64::from(u16::from_be_bytes([bytes[0], bytes[1]]))
}

impl<'a> super::Bits<'a> for Bits<'a> {
    #[inline(always)]
    fn of(message: &'a [u8], length: usize) -> Self {
        let bytes = &message[..(length + 7) / 8];
        let (end, end_at) = match bytes.len().checked_sub(8) {
            Some(before) => (eight(&bytes[before..], 0).unwrap_or(0), 8 * before),
            None => (few(bytes), 0),
        };
        Bits {
            whole: &bytes[..length / 8],
            length,
            next: 0,
            end,
            end_at,
        }
    }

    #[inline(always)]
    fn left(&self) -> usize {
        self.length - self.next
    }

    #[inline(always)]
    fn take(&mut self, width: usize) -> Result<u32, Refusal> {
        if width > self.left() {
            return Err(4);
        }
        let number = self.window() >> (64 - width);
        self.next += width;
        Ok(number as u32)
    }

    fn read_mask(&mut self, identities: usize, value: &mut Value) -> Result<(), Refusal> {
        let first = identities.min(32);
        let mut mask = u64::from(self.take(first)?) << (64 - first);
        let second = identities - first;
        if second > 0 {
            mask |= u64::from(self.take(second)?) << (32 - second);
        }
        value[MASK..MASK + 8].copy_from_slice(&mask.to_be_bytes());
        Ok(())
    }

    #[inline(always)]
    fn read_address(
        &mut self,
        value: &mut Value,
        at: usize,
        external: Refusal,
    ) -> Result<Address, Refusal> {
        let window = self.window();
        let (width, address) = cut(window).ok_or_else(|| refused(window, self.left(), external))?;
        if width > self.left() {
            return Err(4);
        }
        self.next += width;
        value[at..at + 8].copy_from_slice(&address.to_be_bytes());
        Ok(Address {
            kind: (address >> 56) as u32,
            ssi: (address >> 32) as u32 & 0xFF_FFFF,
            extension: (address >> 8) as u32 & 0xFF_FFFF,
        })
    }

    /// An address has 50 bits at the most, so where eight whole bytes are there it is too.
    #[inline(always)]
    fn read_list(
        &mut self,
        count: usize,
        value: &mut Value,
        from: usize,
        external: Refusal,
    ) -> Result<(), Refusal> {
        let to = from + ADDRESS_BYTES * count;
        assert!(to + ADDRESS_BYTES <= VALUE_BYTES);
        let mut at = from;
        let mut next = self.next;
        while at < to {
            let window = match eight(self.whole, next) {
                Some(window) => window,
                None => break,
            };
            let (width, address) = cut(window).ok_or_else(|| refused(window, 57, external))?;
            value[at..at + 8].copy_from_slice(&address.to_be_bytes());
            next += width;
            at += ADDRESS_BYTES;
        }
        self.next = next;
        while at < to {
            self.read_address(value, at, external)?;
            at += ADDRESS_BYTES;
        }
        Ok(())
    }
}

/// For each kind how many bits an address has, and which of them are taken.
static WIDTHS: [usize; 4] = [0, 26, 50, 0];
static TAKEN: [u64; 4] = [0, !0xFFFF_FFFF, !0xFF, 0];

/// How many bits the address has that the window begins with, and its seven bytes as in the value,
/// with a zero behind them, in whose place nothing is yet; nothing where its kind is neither 1 nor
/// 2. Both have kind, SSI and extension in one order, but the value six bits more before the kind.
#[inline(always)]
fn cut(window: u64) -> Option<(usize, u64)> {
    let kind = (window >> 62) as usize;
    match window >> 6 & TAKEN[kind] {
        0 => None,
        address => Some((WIDTHS[kind], address)),
    }
}

/// What an address is refused with whose kind is neither 1 nor 2, or not there.
#[cold]
fn refused(window: u64, left: usize, external: Refusal) -> Refusal {
    match window >> 62 {
        _ if left < 2 => 4,
        0 => KIND,
        _ => external,
    }
}
