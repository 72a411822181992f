//! One call of the product and the same call of the model, each with buffers of its own; every
//! byte that was lent is compared afterwards, and so are the bytes before and behind it. A read is
//! made by both of the product's calls.

use crate::interface;
use crate::tally::{Breaks, Lengths, Tally};
use std::mem;
use std::process;
use std::ptr;

extern "C" {
    fn cad_read(
        profile: *const u8,
        profile_len: usize,
        message: *const u8,
        message_len: usize,
        bits: usize,
        value: *mut u8,
        value_len: usize,
    ) -> u32;
    fn cad_read_at(
        profile: *const u8,
        profile_len: usize,
        message: *const u8,
        message_len: usize,
        bits: usize,
        value: *mut u8,
        value_len: usize,
        position: *mut u32,
        element: *mut u32,
    ) -> u32;
    fn cad_write(
        profile: *const u8,
        profile_len: usize,
        value: *const u8,
        value_len: usize,
        message: *mut u8,
        message_len: usize,
        bits: *mut usize,
    ) -> u32;
}

/// Bytes before and behind a buffer that nobody may touch.
const MARGIN: usize = 16;

/// What the bit length is before a writing.
const NO_LENGTH: usize = 0x5A5A_5A5A_5A5A_5A5A;

/// A buffer with margins, at any distance from an even address.
struct Lent {
    bytes: Vec<u8>,
    start: usize,
    length: usize,
}

impl Lent {
    fn new() -> Self {
        Lent {
            bytes: Vec::new(),
            start: 0,
            length: 0,
        }
    }

    /// Lends `length` bytes that all are `fill`, as the margins are.
    fn lay(&mut self, length: usize, fill: u8, distance: usize) {
        self.bytes.clear();
        self.start = MARGIN + distance;
        self.length = length;
        self.bytes.resize(self.start + length + MARGIN, fill);
    }

    fn lay_copy(&mut self, content: &[u8], fill: u8, distance: usize) {
        self.lay(content.len(), fill, distance);
        self.area().copy_from_slice(content);
    }

    fn area(&mut self) -> &mut [u8] {
        &mut self.bytes[self.start..self.start + self.length]
    }

    /// For the product: nothing at all is lent as a null pointer every other time.
    fn pointer(&mut self, distance: usize) -> *mut u8 {
        if self.length == 0 && distance % 2 == 0 {
            ptr::null_mut()
        } else {
            self.area().as_mut_ptr()
        }
    }
}

/// Position and element, each with a number before and behind it that nobody may touch.
type Numbers = [u32; 5];
const POSITION: usize = 1;
const ELEMENT: usize = 3;

pub struct Both {
    pub reads: Tally,
    /// Of the reads those that were answered 4.
    pub breaks: Breaks,
    pub lengths: Lengths,
    pub writes: Tally,
    calls: usize,
    profile: Lent,
    input: Lent,
    output: Lent,
    /// What `cad_read_at` fills.
    output_at: Lent,
    profile_before: Lent,
    input_before: Lent,
    output_wanted: Lent,
}

impl Both {
    pub fn new() -> Self {
        Both {
            reads: Tally::new(),
            breaks: Breaks::new(),
            lengths: Lengths::new(),
            writes: Tally::new(),
            calls: 0,
            profile: Lent::new(),
            input: Lent::new(),
            output: Lent::new(),
            output_at: Lent::new(),
            profile_before: Lent::new(),
            input_before: Lent::new(),
            output_wanted: Lent::new(),
        }
    }

    /// Reads a message into an area of `room` bytes, on both sides. The product's two calls have to
    /// give the same answer and the same bytes.
    pub fn read(&mut self, profile: &[u8], message: &[u8], bits: usize, room: usize) {
        let distance = self.lay(profile, message, room);
        let got = unsafe {
            cad_read(
                self.profile.pointer(distance),
                profile.len(),
                self.input.pointer(distance),
                message.len(),
                bits,
                self.output.pointer(distance),
                room,
            )
        };
        let before = self.numbers();
        let (mut numbers, mut numbers_wanted) = (before, before);
        let got_at = unsafe {
            let pointer = numbers.as_mut_ptr();
            cad_read_at(
                self.profile.pointer(distance),
                profile.len(),
                self.input.pointer(distance),
                message.len(),
                bits,
                self.output_at.pointer(distance),
                room,
                pointer.add(POSITION),
                pointer.add(ELEMENT),
            )
        };
        let [_, position, _, element, _] = &mut numbers_wanted;
        let area = self.output_wanted.area();
        let wanted = interface::cad_read_at(profile, message, bits, area, position, element);
        // With every other answer the model's two are as they were before.
        let told = [*position, *element];
        if got != wanted || !self.same() {
            self.differs("read", profile, message, &[bits, room], (got, wanted));
        }
        mem::swap(&mut self.output, &mut self.output_at);
        if got_at != wanted || numbers != numbers_wanted || !self.same() {
            let mut shown = vec![bits, room];
            shown.extend(before.iter().chain(&numbers).map(|number| *number as usize));
            shown.extend(told.map(|number| number as usize));
            self.differs("read_at", profile, message, &shown, (got_at, wanted));
        }
        if got == 4 {
            self.breaks.add(told[1], bits > told[0] as usize);
        }
        self.lengths.add(got, bits, told[0] as usize);
        let pdu = if got == 0 { self.output.area()[0] } else { 0 };
        self.reads.add(got, pdu);
    }

    /// Others for each call; what stands in them is sometimes what a 4 could say.
    fn numbers(&self) -> Numbers {
        let mut numbers = [0; 5];
        for (place, number) in numbers.iter_mut().enumerate() {
            let drawn = (self.calls as u32 + 7 * place as u32).wrapping_mul(0x9E37_79B1);
            *number = match self.calls % 4 {
                0 => drawn >> 27,
                _ => drawn,
            };
        }
        numbers
    }

    /// Writes a value into an area of `room` bytes, on both sides.
    pub fn write(&mut self, profile: &[u8], value: &[u8], room: usize) {
        let distance = self.lay(profile, value, room);
        let (mut bits, mut bits_wanted) = (NO_LENGTH, NO_LENGTH);
        let got = unsafe {
            cad_write(
                self.profile.pointer(distance),
                profile.len(),
                self.input.pointer(distance),
                value.len(),
                self.output.pointer(distance),
                room,
                &mut bits,
            )
        };
        let area = self.output_wanted.area();
        let wanted = interface::cad_write(profile, value, area, &mut bits_wanted);
        if got != wanted || bits != bits_wanted || !self.same() {
            let numbers = [room, bits, bits_wanted];
            self.differs("write", profile, value, &numbers, (got, wanted));
        }
        self.writes
            .add(got, value.first().copied().unwrap_or_default());
    }

    /// Lays all buffers anew, with another content around them and at another distance each time.
    fn lay(&mut self, profile: &[u8], input: &[u8], room: usize) -> usize {
        self.calls += 1;
        let fill = (self.calls * 29) as u8;
        let distance = self.calls % 8;
        self.profile.lay_copy(profile, fill, distance);
        self.profile_before.lay_copy(profile, fill, distance);
        self.input.lay_copy(input, fill, distance / 2);
        self.input_before.lay_copy(input, fill, distance / 2);
        self.output.lay(room, fill, 7 - distance);
        self.output_at.lay(room, fill, 7 - distance);
        self.output_wanted.lay(room, fill, 7 - distance);
        distance
    }

    fn same(&self) -> bool {
        self.profile.bytes == self.profile_before.bytes
            && self.input.bytes == self.input_before.bytes
            && self.output.bytes == self.output_wanted.bytes
    }

    fn differs(
        &mut self,
        call: &str,
        profile: &[u8],
        input: &[u8],
        numbers: &[usize],
        answers: (u32, u32),
    ) -> ! {
        println!("call {}: product and model differ in a {call}", self.calls);
        println!("profile {}", hex_of(profile));
        println!("input   {}", hex_of(input));
        println!("numbers {numbers:?} (read: bits, room; write: room, bits got, bits wanted;");
        println!("read_at: bits, room, five before, five got, position and element wanted)");
        println!("answers product {}, model {}", answers.0, answers.1);
        println!("product {}", hex_of(&self.output.bytes));
        println!("model   {}", hex_of(&self.output_wanted.bytes));
        println!("(both outputs with the bytes around them)");
        if self.profile.bytes != self.profile_before.bytes
            || self.input.bytes != self.input_before.bytes
        {
            println!("the product changed what was lent to be read");
        }
        process::exit(1);
    }
}

fn hex_of(bytes: &[u8]) -> String {
    bytes.iter().map(|byte| format!("{byte:02X}")).collect()
}
