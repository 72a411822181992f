//! The suite's lines for request (ii): messages that break off.

use super::Suite;
use crate::laid_out::{shapes, Shape};
use crate::line::line_of;
use crate::write::bytes_of;

impl Suite {
    /// The last line is the worked one.
    pub(super) fn breaks(&mut self) {
        self.cut_shapes(&shapes());
        self.text("24 25800280");
    }

    /// Every message laid out by hand, whole, and cut at each of its elements: with nothing of it
    /// there, and with all of it but one bit. The bytes say the rest every other time.
    pub(super) fn cut_shapes(&mut self, shapes: &[Shape]) {
        for (number, shape) in shapes.iter().enumerate() {
            let bits = shape.bits();
            let mut begin = 0;
            for (_, _, width) in &shape.elements {
                for length in [begin, begin + width - 1] {
                    // One bit wide: the two are one.
                    if *width > 1 || length == begin {
                        let there = if number % 2 == 0 { bits.len() } else { length };
                        self.lines.push(line_of(length, &bytes_of(&bits[..there])));
                    }
                }
                begin += width;
            }
            self.lines.push(line_of(bits.len(), &bytes_of(&bits)));
        }
    }
}
