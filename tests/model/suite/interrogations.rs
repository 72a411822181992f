//! The suite's lines for request (viii): INTERROGATE ACK, and the bounds that it raised.

use super::{Row, Suite, FAR_USER, NO_OPTION, USER};
use crate::laid_out::interrogations;
use crate::line::line_of;
use crate::worked;

const HEADER: Row = &[(9, 6), (9, 5)];
const NO_MASK: Row = &[(0, 1)];
const ACCEPTED: Row = &[(1, 1), (1, 1), (0, 1), (2, 2), (1, 2)];
const NOT_ACCEPTED: Row = &[(0, 1), (5, 3)];
const O_BIT: Row = &[(1, 1)];
const HERE: Row = &[(1, 1)];
const ABSENT: Row = &[(0, 1)];
/// Another user of each kind that may follow `USER` and `FAR_USER` in a range.
const LATER: Row = &[(1, 2), (1004, 24)];
const FAR_LATER: Row = &[(2, 2), (1004, 24), (0xABCDEF, 24)];

impl Suite {
    /// The worked cases at every bit, the messages laid out by hand cut at each element, what each
    /// group may say and what is refused there, and lengths around both bounds. The last line is a
    /// worked one.
    pub(super) fn interrogations(&mut self) {
        for case in &worked::interrogation_cases() {
            match case.expected {
                Ok(_) => self.cut_short(case),
                Err(_) => self.text(&format!("{} {}", case.length, case.hex)),
            }
        }
        for line in [
            "56 25228001F4B000",
            "57 25228001F4B00000",
            "64 25228001F4863E6A",
            "240 25228001F4B1E28001F64A0003E90000054000FB3E8001F4A0007D931F00",
        ] {
            self.text(line);
        }
        self.headers_of_interrogations();
        self.cut_shapes(&interrogations());
        for result in [ACCEPTED, NOT_ACCEPTED] {
            self.results_of_interrogations(result);
            for group in 0..4 {
                let before = before_group(result, group);
                self.ranges_of_group(&before, group);
                if group < 3 {
                    self.kinds_of_group(&before, group);
                    self.ends_of_group(&before, group);
                } else {
                    self.areas_of_group(&before);
                }
            }
        }
        self.users_of_interrogations();
        self.longer_lengths();
        self.text("50 25228001F4B000");
    }

    /// 5 before all that the message says; the types around 9 with the same elements.
    fn headers_of_interrogations(&mut self) {
        for ss_type in [8, 11, 41] {
            self.message(&[&[(ss_type, 6), (9, 5)]]);
            self.message(&[&[(ss_type, 6), (9, 5), (0, 4)]]);
        }
        for pdu_type in 6..11 {
            let header: Row = &[(9, 6), (pdu_type, 5), (1, 4)];
            self.message(&[header, USER, NO_MASK, ACCEPTED, NO_OPTION]);
            self.message(&[header, USER, NO_MASK, NOT_ACCEPTED, NO_OPTION]);
        }
    }

    /// Every choice of the groups, each "none" or a list; and all that may follow the result.
    fn results_of_interrogations(&mut self, result: Row) {
        let one: Row = &[HEADER, &[(1, 4)], USER, NO_MASK, result].concat();
        for chosen in 0..16 {
            for groups in [[&[(0, 4)][..]; 4], GROUPS] {
                let mut rows = vec![one, O_BIT];
                for (number, group) in groups.iter().enumerate() {
                    match (chosen >> number) & 1 {
                        1 => rows.extend([HERE, group]),
                        _ => rows.push(ABSENT),
                    }
                }
                self.message(&rows);
            }
        }
        for rest in [
            &[][..],
            &[(0, 1)],
            &[(1, 1)],
            &[(0, 2)],
            &[(1, 1), (0, 3)],
            &[(1, 1), (0, 4)],
            &[(1, 1), (0, 5)],
            &[(1, 1), (1, 1)],
            &[(1, 1), (1, 1), (0, 4)],
            &[(1, 1), (1, 1), (0, 4), (0, 2)],
            &[(1, 1), (1, 1), (0, 4), (0, 3)],
            &[(1, 1), (1, 1), (0, 4), (0, 4)],
        ] {
            self.message(&[one, rest]);
        }
        // What stands where the other result's elements would.
        for number in 0..8 {
            let (accepted, not): (Row, Row) = (&[(1, 1), (number, 6)], &[(0, 1), (number, 3)]);
            let one: Row = &[HEADER, &[(1, 4)], USER, NO_MASK].concat();
            self.message(&[one, accepted, NO_OPTION]);
            self.message(&[one, not, NO_OPTION]);
            self.message(&[one, not]);
        }
    }

    fn ranges_of_group(&mut self, before: Row, group: usize) {
        let after = after_group(group);
        let (one, other): (Row, Row) = match group {
            3 => (&[(3, 4)], &[(5, 4)]),
            _ => (USER, LATER),
        };
        for range in 0..16 {
            self.message(&[before, &[(range, 4)]]);
            self.message(&[before, &[(range, 4)], after]);
            self.message(&[before, &[(range, 4)], one, after]);
            self.message(&[before, &[(range, 4)], one, other, after]);
            self.message(&[before, &[(range, 4)], one, other, one, after]);
        }
    }

    /// 10 and 27 at each place where a kind stands, with nothing behind the kind and with a whole
    /// message.
    fn kinds_of_group(&mut self, before: Row, group: usize) {
        let after = after_group(group);
        for kind in 0..4 {
            let bare: Row = &[(kind, 2)];
            let home: Row = &[(kind, 2), (1004, 24)];
            let far: Row = &[(kind, 2), (1004, 24), (0xABCDEF, 24)];
            self.message(&[before, &[(1, 4)], bare]);
            for address in [home, far] {
                self.message(&[before, &[(1, 4)], address, after]);
                self.message(&[before, &[(3, 4)], USER, FAR_USER, address, after]);
                self.message(&[before, &[(15, 4)], USER, address, after]);
                self.message(&[before, &[(15, 4)], address, FAR_LATER, after]);
            }
        }
    }

    fn ends_of_group(&mut self, before: Row, group: usize) {
        let after = after_group(group);
        let ends = |first: Row, last: Row| [before, &[(15, 4)], first, last].concat();
        // 64 identities, 65 and 1; falling; apart by what the lowest 16 bits don't show.
        for last in [1064, 1065, 1001, 1000, 0, 1001 + (1 << 16)] {
            let far_last: Row = &[(2, 2), (last, 24), (0xABCDEF, 24)];
            self.message(&[&ends(USER, &[(1, 2), (last, 24)]), after]);
            self.message(&[&ends(FAR_USER, far_last), after]);
        }
        for (first, last) in [
            (USER, FAR_LATER),
            (FAR_USER, LATER),
            (FAR_USER, &[(2, 2), (1001, 24), (0xABCDEE, 24)]),
        ] {
            self.message(&[&ends(first, last), after]);
        }
        self.message(&[&ends(LATER, USER)]);
    }

    /// Falling, equal and rising, by one and by as much as there is.
    fn areas_of_group(&mut self, before: Row) {
        for (first, last) in [(0, 0), (15, 15), (0, 15), (15, 0), (7, 8), (8, 7), (1, 0)] {
            self.message(&[before, &[(15, 4), (first, 4), (last, 4)]]);
            self.message(&[before, &[(15, 4), (first, 4), (last, 4), (0, 1)]]);
            self.message(&[before, &[(15, 4), (first, 4), (last >> 1, 3)]]);
            // A list may fall.
            self.message(&[before, &[(2, 4), (first, 4), (last, 4)]]);
        }
    }

    /// The users are ACTIVATE's: reserved and "none" give 9, and the mask counts identities.
    fn users_of_interrogations(&mut self) {
        let after: Row = &[NO_MASK, ACCEPTED, NO_OPTION].concat();
        for range in 0..16 {
            self.message(&[HEADER, &[(range, 4)]]);
            self.message(&[HEADER, &[(range, 4)], USER, LATER, after]);
        }
        for kind in 0..4 {
            self.message(&[HEADER, &[(1, 4), (kind, 2)]]);
            self.message(&[HEADER, &[(15, 4)], USER, &[(kind, 2), (1004, 24)], after]);
        }
        for last in [1064, 1065, 1001, 1000] {
            let ends: Row = &[&[(15, 4)], USER, &[(1, 2), (last, 24)]].concat();
            self.message(&[HEADER, ends, after]);
            self.message(&[
                HEADER,
                ends,
                &[(1, 1), (!0, 32), (0, 32)],
                ACCEPTED,
                NO_OPTION,
            ]);
            self.message(&[HEADER, ends, &[(1, 1), (1, 1)], NOT_ACCEPTED, NO_OPTION]);
        }
    }

    fn longer_lengths(&mut self) {
        for (length, byte_count) in [
            (2047, 256),
            (2048, 257),
            (2049, 512),
            (4087, 511),
            (4088, 511),
            (4089, 511),
            (4095, 512),
            (4096, 512),
            (4097, 512),
            (4097, 513),
            (4104, 513),
            (9999, 512),
            (11, 511),
            (11, 512),
            (11, 513),
        ] {
            let mut bytes = vec![0x25, 0xA0];
            bytes.resize(byte_count, 0);
            self.lines.push(line_of(length, &bytes));
        }
        for digits in [1022, 1023, 1025, 1026, 2048] {
            self.lines
                .push([b"11 25A", &vec![b'0'; digits - 3][..]].concat());
        }
    }
}

const GROUPS: [Row; 4] = [
    &[(1, 4), (1, 2), (9, 24)],
    &[(2, 4), (1, 2), (9, 24), (2, 2), (9, 24), (0xABCDEF, 24)],
    &[(15, 4), (1, 2), (9, 24), (1, 2), (72, 24)],
    &[(3, 4), (15, 4), (0, 4), (8, 4)],
];

/// A message up to the P-bit of this group, the ones before it being absent.
fn before_group(result: Row, group: usize) -> Vec<(u32, usize)> {
    let one: Row = &[HEADER, &[(1, 4)], USER, NO_MASK, result, O_BIT].concat();
    [one, &vec![(0, 1); group], HERE].concat()
}

/// The P-bits of the groups behind this one.
fn after_group(group: usize) -> Row<'static> {
    &[(0, 1), (0, 1), (0, 1)][group..]
}
