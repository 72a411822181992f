//! The suite's lines for request (iv): REQUEST, CANCEL, REJECT and REJECTED.

use super::{Row, Suite, FAR_USER, NO_OPTION, OPTION, USER};
use crate::worked;

const REQUEST: Row = &[(9, 6), (11, 5), (16_383, 14), (31, 5)];
const CANCEL: Row = &[(9, 6), (14, 5)];
const REJECT: Row = &[(9, 6), (17, 5)];
const REJECTED: Row = &[(9, 6), (18, 5), (17, 5)];
const O_BIT: Row = &[(1, 1)];
const HERE: Row = &[(1, 1)];
const ABSENT: Row = &[(0, 1)];

/// REQUEST's options in their order, each behind its P-bit; the largest where they are numbers.
const OPTIONS: [Row; 7] = [
    USER,
    FAR_USER,
    &[(0xFF_FFFF, 24)],
    &[(15, 4)],
    &[(8, 4)],
    &[(3, 2)],
    &[(2, 2)],
];

impl Suite {
    /// The worked cases and bits left over, what can be refused, and each choice of the options.
    pub(super) fn requests(&mut self) {
        for case in worked::request_cases() {
            match case.expected {
                Ok(_) => self.cut_short(&case),
                Err(_) => self.text(&format!("{} {}", case.length, case.hex)),
            }
        }
        for line in [
            "32 25600280",
            "152 2560028B4000FA70001F6000002C00001632B8",
            "18 264200",
            "45 2642D0003E90",
        ] {
            self.text(line);
        }
        self.kinds_of_requests();
        self.options_of_both();
        for chosen in 0..128 {
            self.options_of_request(chosen);
        }
        self.message(&[REJECT, &[(0, 14), (31, 5)]]);
        self.message(&[REJECT, &[(16_383, 14), (0, 5)]]);
        self.message(&[CANCEL, &[(16_383, 14)]]);
    }

    fn kinds_of_requests(&mut self) {
        for kind in 0..4 {
            self.message(&[REQUEST, O_BIT, HERE, &[(kind, 2)]]);
            self.message(&[REQUEST, O_BIT, ABSENT, HERE, &[(kind, 2)]]);
            self.message(&[REQUEST, O_BIT, HERE, USER, HERE, &[(kind, 2)]]);
            // SSI, no extension, five P-bits of 0; or with it.
            self.message(&[REQUEST, O_BIT, ABSENT, HERE, &[(kind, 2), (7, 24), (0, 5)]]);
            let far: Row = &[(kind, 2), (7, 24), (7, 24), (0, 5)];
            self.message(&[REQUEST, O_BIT, ABSENT, HERE, far]);
        }
    }

    /// The O-bit and what may follow it; an option alone is whole in REJECTED, not in REQUEST.
    fn options_of_both(&mut self) {
        for before in [REJECTED, REQUEST] {
            self.message(&[before, NO_OPTION]);
            self.message(&[before, NO_OPTION, &[(0, 1)]]);
            self.message(&[before, O_BIT]);
            self.message(&[before, O_BIT, &[(0, 1)]]);
            self.message(&[before, O_BIT, &[(0, 6)]]);
            self.message(&[before, O_BIT, &[(0, 7)]]);
            self.message(&[before, O_BIT, &[(0, 8)]]);
            self.message(&[before, OPTION]);
            self.message(&[before, OPTION, USER]);
            self.message(&[before, OPTION, FAR_USER]);
            self.message(&[before, OPTION, &[(0, 2)]]);
            self.message(&[before, OPTION, &[(3, 2)], USER]);
        }
    }

    /// The options whose bits are set in `chosen`, the first by the lowest bit.
    fn options_of_request(&mut self, chosen: u32) {
        let mut rows = vec![REQUEST, O_BIT];
        for (number, option) in OPTIONS.iter().enumerate() {
            if (chosen >> number) & 1 == 1 {
                rows.extend([HERE, option]);
            } else {
                rows.push(ABSENT);
            }
        }
        self.message(&rows);
    }
}
