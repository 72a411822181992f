//! The fixed list of input lines that is stored as the listing's test input.
//! Chosen by hand or counted through; no dice. Its last line has no LF. What a request brings is
//! appended.

mod breaks;
mod deactivations;
mod interrogations;
mod requests;

use crate::hex::read_hex;
use crate::line::line_of;
use crate::shapes;
use crate::worked::{self, Case};
use crate::write::{bytes_of, elements};
use std::io::{self, Write};

/// Elements as their number and width.
type Row<'a> = &'a [(u32, usize)];

const ACTIVATE: Row = &[(9, 6), (2, 5)];
const ACK: Row = &[(9, 6), (3, 5)];
const INTERROGATE: Row = &[(9, 6), (8, 5)];
const INTERCEPTED: Row = &[(9, 6), (10, 5), (31, 5)];
const DIVERTED: Row = &[(9, 6), (16, 5), (17, 5)];
const NO_OPTION: Row = &[(0, 1)];
const OPTION: Row = &[(1, 1), (1, 1)];
const USER: Row = &[(1, 2), (1001, 24)];
const FAR_USER: Row = &[(2, 2), (1001, 24), (0xABCDEF, 24)];

pub fn write_suite(out: &mut dyn Write) -> io::Result<()> {
    out.write_all(&lines().join(&b'\n'))
}

fn lines() -> Vec<Vec<u8>> {
    let mut suite = Suite { lines: Vec::new() };
    suite.worked_cases();
    suite.headers();
    suite.ranges();
    suite.range_ends();
    suite.kinds();
    suite.options();
    suite.acks(ACK);
    suite.lengths();
    suite.lines.extend(shapes::lines());
    suite.text("25 25FFFF80");
    suite.requests();
    suite.deactivations();
    suite.breaks();
    suite.interrogations();
    suite.lines
}

struct Suite {
    lines: Vec<Vec<u8>>,
}

impl Suite {
    fn text(&mut self, line: &str) {
        self.lines.push(line.as_bytes().to_vec());
    }

    fn message(&mut self, rows: &[Row]) {
        let bits = elements(&rows.concat());
        self.lines.push(line_of(bits.len(), &bytes_of(&bits)));
    }

    /// The paper's cases 1 to 8 at every bit length up to their own, and case 1's 12 bits.
    fn worked_cases(&mut self) {
        for line in worked::LISTING_INPUT.lines() {
            self.text(line);
        }
        for case in worked::cases().iter().filter(|case| case.expected.is_ok()) {
            self.cut_short(case);
        }
        // Bits left over: one, up to the byte's end, a byte, and all that the bytes hold.
        for line in [
            "26 25800280",
            "26 25FFFF80",
            "18 254000",
            "45 2542D0000010",
            "38 2508001F48",
            "69 245E8001F4A0007D80",
            "16 25A0",
            "19 25A000",
        ] {
            self.text(line);
        }
    }

    /// A case at every bit length up to its own.
    fn cut_short(&mut self, case: &Case) {
        self.every_length(case.hex, case.length);
    }

    fn every_length(&mut self, hex: &str, most: usize) {
        let bytes = read_hex(hex.as_bytes()).unwrap_or_default();
        for length in 0..=most {
            self.lines.push(line_of(length, &bytes));
        }
    }

    fn headers(&mut self) {
        for pdu_type in 0..32 {
            self.message(&[&[(9, 6), (pdu_type, 5)]]);
        }
        // 5 before 6 and 7, but not before a header cut short.
        for (ss_type, pdu_type) in [(8, 13), (41, 13), (0, 0), (63, 31), (10, 4)] {
            self.message(&[&[(ss_type, 6), (pdu_type, 5)]]);
        }
        self.message(&[&[(8, 6), (6, 4)]]);
        self.message(&[&[(9, 6), (15, 4)]]);
        self.message(&[&[(8, 6), (13, 5), (1, 1)]]);
        self.message(&[&[(9, 6), (19, 5), (0, 20)]]);
    }

    fn ranges(&mut self) {
        for range in [0, 1, 2, 3, 4, 14, 15] {
            self.message(&[ACTIVATE, &[(range, 4)], USER, USER, NO_OPTION]);
        }
        self.message(&[ACTIVATE, &[(0, 4)]]);
        self.message(&[ACTIVATE, &[(14, 4)]]);
        self.message(&[ACK, &[(0, 4)], USER, &[(0, 1), (1, 1)]]);
        self.message(&[ACK, &[(4, 4)]]);
        let one_user: Row = &[&[(1, 4)], USER].concat();
        for (range, count) in [(0, 0), (1, 1), (2, 2), (3, 3), (4, 0), (14, 1), (15, 2)] {
            let addresses = USER.repeat(count);
            self.message(&[ACTIVATE, one_user, OPTION, &[(range, 4)], &addresses]);
        }
        self.message(&[ACTIVATE, one_user, OPTION, &[(0, 4)], USER]);
        self.message(&[ACTIVATE, one_user, OPTION, &[(2, 4)], USER]);
        self.message(&[ACTIVATE, one_user, OPTION, &[(1, 4), (3, 2)]]);
        self.message(&[ACTIVATE, &[(3, 4)], USER, FAR_USER, USER, NO_OPTION]);
        self.message(&[ACTIVATE, &[(2, 4)], FAR_USER, FAR_USER, NO_OPTION]);
    }

    fn range_ends(&mut self) {
        let one_user: Row = &[&[(1, 4)], USER].concat();
        let ends = |first: Row, last: Row| [&[(15, 4)], first, last].concat();
        // Case 10, in the users of ACTIVATE and ACTIVATE ACK and in the dispatchers.
        for count in [64, 65, 1] {
            let last: Row = &[(1, 2), (1000 + count, 24)];
            let far_last: Row = &[(2, 2), (1000 + count, 24), (0xABCDEF, 24)];
            self.message(&[ACTIVATE, &ends(USER, last), NO_OPTION]);
            self.message(&[ACTIVATE, &ends(FAR_USER, far_last), NO_OPTION]);
            self.message(&[ACTIVATE, one_user, OPTION, &ends(USER, last)]);
            self.message(&[ACK, &ends(USER, last), &[(0, 1), (1, 1)]]);
        }
        let faulty: [Row; 6] = [
            &[(1, 2), (1000, 24)],
            &[(1, 2), (0, 24)],
            &[(1, 2), (0xFF_FFFF, 24)],
            &[(2, 2), (1001, 24), (0, 24)],
            &[(2, 2), (1002, 24), (0xABCDEF, 24)],
            &[(1, 2), (1001 + (1 << 16), 24)],
        ];
        for last in faulty {
            self.message(&[ACTIVATE, &ends(USER, last), NO_OPTION]);
        }
        self.message(&[ACTIVATE, &ends(USER, faulty[0])]);
        self.message(&[ACK, &ends(USER, faulty[1])]);
        self.message(&[ACTIVATE, &ends(FAR_USER, USER), NO_OPTION]);
        let other_extension: Row = &[(2, 2), (1001, 24), (0xABCDEE, 24)];
        self.message(&[ACTIVATE, &ends(FAR_USER, other_extension), NO_OPTION]);
        // A second end cut short by one bit is 4, whatever it would have said.
        self.message(&[ACTIVATE, &ends(USER, &[(1, 2), (0, 23)])]);
        self.message(&[ACTIVATE, &ends(USER, &[(2, 2), (0, 24), (0, 23)])]);
        // The two ends of the number space.
        let (lowest, highest): (Row, Row) = (&[(1, 2), (0, 24)], &[(1, 2), (0xFF_FFFF, 24)]);
        let (up_to_63, from_63): (Row, Row) = (&[(1, 2), (63, 24)], &[(1, 2), (0xFF_FFC0, 24)]);
        self.message(&[ACTIVATE, &ends(lowest, up_to_63), NO_OPTION]);
        self.message(&[ACTIVATE, &ends(from_63, highest), NO_OPTION]);
        self.message(&[ACTIVATE, &ends(highest, lowest), NO_OPTION]);
    }

    fn kinds(&mut self) {
        for kind in 0..4 {
            self.message(&[INTERROGATE, &[(kind, 2)]]);
            self.message(&[INTERROGATE, &[(kind, 2), (1001, 24)]]);
            self.message(&[INTERROGATE, &[(kind, 2), (1001, 24), (7, 24)]]);
        }
        self.message(&[ACTIVATE, &[(2, 4)], USER, &[(0, 2)]]);
        self.message(&[ACTIVATE, &[(2, 4)], USER, &[(1, 2)]]);
        self.message(&[ACTIVATE, &[(15, 4)], USER, &[(3, 2), (1001, 24), (0, 1)]]);
        self.message(&[ACK, &[(1, 4), (0, 2), (1001, 24), (0, 1), (1, 1)]]);
        self.message(&[INTERROGATE, &[(1, 1)]]);
        self.message(&[INTERROGATE, &[(2, 2), (1001, 24), (7, 23)]]);
    }

    fn options(&mut self) {
        let one_user: Row = &[ACTIVATE, &[(1, 4)], USER].concat();
        for before in [INTERCEPTED, DIVERTED, one_user] {
            self.message(&[before, NO_OPTION]);
            self.message(&[before, &[(1, 1)]]);
            self.message(&[before, &[(1, 1), (0, 1)]]);
            self.message(&[before, &[(1, 1), (0, 1)], USER]);
            self.message(&[before, OPTION]);
        }
        for before in [INTERCEPTED, DIVERTED] {
            self.message(&[before, OPTION, USER]);
            self.message(&[before, OPTION, FAR_USER]);
            self.message(&[before, OPTION, &[(0, 2)]]);
            self.message(&[before, OPTION, &[(3, 2)], USER]);
        }
    }

    /// ACKs of one type, ACTIVATE's or DEACTIVATE's, from the header on.
    fn acks(&mut self, header: Row) {
        let range_of_4: Row = &[&[(15, 4)], USER, &[(1, 2), (1004, 24)]].concat();
        let range_of_64: Row = &[&[(15, 4)], USER, &[(1, 2), (1064, 24)]].concat();
        let accepted: Row = &[(1, 1)];
        // Case 9's three ACKs.
        self.message(&[header, range_of_4, &[(1, 1), (0b1100, 4)], accepted]);
        self.message(&[header, range_of_4, &[(1, 1), (0b0010, 4), (0, 1), (1, 7)]]);
        self.message(&[header, range_of_4, &[(1, 1), (0b0001, 4), (0, 1), (2, 7)]]);
        // The mask counts identities, not addresses: two bits are too few here.
        self.message(&[header, range_of_4, &[(1, 1), (0b11, 2)]]);
        self.message(&[
            header,
            range_of_64,
            &[(1, 1), (0, 31), (1, 32), (1, 1)],
            accepted,
        ]);
        self.message(&[header, range_of_64, &[(1, 1), (0, 31), (1, 32)]]);
        self.message(&[header, range_of_64, &[(1, 1), (!0, 32), (!0, 32)]]);
        for count in 1..4 {
            let list: Row = &[&[(count, 4)], &USER.repeat(count as usize)[..]].concat();
            let width = count as usize;
            self.message(&[header, list, &[(0, 1)], accepted]);
            self.message(&[header, list, &[(1, 1), (0, width)], accepted]);
            self.message(&[header, list, &[(1, 1), (!0, width)], &[(0, 1), (0, 7)]]);
        }
        let list: Row = &[&[(2, 4)], USER, FAR_USER].concat();
        self.message(&[header, list]);
        self.message(&[header, list, &[(1, 1), (1, 1)]]);
        self.message(&[header, list, &[(0, 1)], &[(0, 1), (127, 7)]]);
        self.message(&[header, list, &[(0, 1)], &[(0, 1), (0, 6)]]);
        self.message(&[header, list, &[(0, 1)], accepted, &[(0, 7)]]);
    }

    fn lengths(&mut self) {
        for (length, byte_count) in [
            (11, 255),
            (11, 256),
            (11, 257),
            (2041, 255),
            (2048, 256),
            (2049, 256),
            (2049, 257),
            (2059, 256),
            (9999, 256),
        ] {
            let mut bytes = vec![0x25, 0xA0];
            bytes.resize(byte_count, 0);
            self.lines.push(line_of(length, &bytes));
        }
        let few = "0 /11 /0000 25A0/17 25A0/9 25/11 25/2048 25A0/9999 25A0";
        let enough = "011 25A0/0011 25A0/11 25BF/11 25A0FFFF";
        for line in few.split('/').chain(enough.split('/')) {
            self.text(line);
        }
    }
}
