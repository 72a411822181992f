//! The suite's lines for request (i): DEACTIVATE and DEACTIVATE ACK.

use super::{Row, Suite, FAR_USER, USER};
use crate::worked;

const DEACTIVATE: Row = &[(9, 6), (4, 5)];
const ACK: Row = &[(9, 6), (5, 5)];
/// What an ACK without a mask, accepted, has behind its users; DEACTIVATE has nothing there.
const ACCEPTED: Row = &[(0, 1), (1, 1)];
/// Another user of each kind that may follow `USER` and `FAR_USER` in a range.
const LATER: Row = &[(1, 2), (1004, 24)];
const FAR_LATER: Row = &[(2, 2), (1004, 24), (0xABCDEF, 24)];

/// The two messages as they begin, each with what follows its users.
const BOTH: [(Row, Row); 2] = [(DEACTIVATE, &[]), (ACK, ACCEPTED)];

impl Suite {
    /// The worked cases and bits left over, what can be refused, lists and ranges, and ACKs as
    /// ACTIVATE has them; at the end DEACTIVATE's worked line once more.
    pub(super) fn deactivations(&mut self) {
        let cases = worked::deactivation_cases();
        for case in &cases {
            match case.expected {
                Ok(_) => self.cut_short(case),
                Err(_) => self.text(&format!("{} {}", case.length, case.hex)),
            }
        }
        // A list of both kinds: DEACTIVATE, and the ACK with a mask of 00 and reason 0.
        self.every_length("24848001F4C00000E00000A0", 91);
        self.every_length("24A48001F4C00000E00000B000", 102);
        for line in [
            "72 249E8001F4A0007D80",
            "80 249E8001F4A0007D8000",
            "74 24BE8001F4A0007D9C80",
            "80 24BE8001F4A0007D9C80",
            "81 24BE8001F4A0007D920100",
            "88 24BE8001F4A0007D9102FF",
        ] {
            self.text(line);
        }
        self.headers_of_both();
        for (before, after) in BOTH {
            self.ranges_of_both(before, after);
            self.kinds_of_both(before, after);
            self.ends_of_both(before, after);
        }
        self.no_option();
        self.acks(ACK);
        self.text("67 249E8001F4A0007D80");
    }

    /// 5 before all that the message says; the types that are still not carried, with the same
    /// elements behind them.
    fn headers_of_both(&mut self) {
        for ss_type in [8, 11, 41] {
            for pdu_type in [4, 5] {
                self.message(&[&[(ss_type, 6), (pdu_type, 5)]]);
                self.message(&[&[(ss_type, 6), (pdu_type, 5), (0, 4)]]);
            }
        }
        for pdu_type in 4..10 {
            self.message(&[&[(9, 6), (pdu_type, 5), (1, 4)], USER]);
            self.message(&[&[(9, 6), (pdu_type, 5), (1, 4)], USER, ACCEPTED]);
        }
    }

    fn ranges_of_both(&mut self, before: Row, after: Row) {
        for range in 0..16 {
            self.message(&[before, &[(range, 4)]]);
            self.message(&[before, &[(range, 4)], USER, after]);
            self.message(&[before, &[(range, 4)], USER, LATER, after]);
        }
        for count in 1..4 {
            let far = FAR_USER.repeat(count as usize);
            self.message(&[before, &[(count, 4)], &far, after]);
            self.message(&[before, &[(count, 4)], &USER.repeat(3), after]);
        }
        self.message(&[before, &[(2, 4)], USER, FAR_USER, after]);
        self.message(&[before, &[(2, 4)], FAR_USER, USER, after]);
        self.message(&[before, &[(3, 4)], FAR_USER, USER, FAR_LATER, after]);
        self.message(&[before, &[(3, 4)], LATER, FAR_USER, USER, after]);
    }

    /// 10 at each place where a kind stands, with nothing behind the kind and with a whole
    /// message.
    fn kinds_of_both(&mut self, before: Row, after: Row) {
        for kind in 0..4 {
            let bare: Row = &[(kind, 2)];
            let home: Row = &[(kind, 2), (1004, 24)];
            let far: Row = &[(kind, 2), (1004, 24), (0xABCDEF, 24)];
            for address in [bare, home, far] {
                self.message(&[before, &[(1, 4)], address, after]);
                self.message(&[before, &[(2, 4)], FAR_USER, address, after]);
                self.message(&[before, &[(3, 4)], USER, USER, address, after]);
                self.message(&[before, &[(15, 4)], USER, address, after]);
                self.message(&[before, &[(15, 4)], address, LATER, after]);
            }
        }
    }

    fn ends_of_both(&mut self, before: Row, after: Row) {
        let ends = |first: Row, last: Row| [before, &[(15, 4)], first, last].concat();
        // 64 identities, 65 and 1, of either kind.
        for count in [63, 64, 65, 66, 1] {
            let last: Row = &[(1, 2), (1000 + count, 24)];
            let far_last: Row = &[(2, 2), (1000 + count, 24), (0xABCDEF, 24)];
            self.message(&[&ends(USER, last), after]);
            self.message(&[&ends(FAR_USER, far_last), after]);
        }
        // Falling, far apart, and apart by what the lowest 16 bits don't show.
        for last in [1000, 0, 0xFF_FFFF, 1001 + (1 << 16), 1001 + (1 << 23)] {
            let far_last: Row = &[(2, 2), (last, 24), (0xABCDEF, 24)];
            self.message(&[&ends(USER, &[(1, 2), (last, 24)]), after]);
            self.message(&[&ends(FAR_USER, far_last), after]);
        }
        // Another kind, another extension, the home extension said or not.
        for (first, last) in [
            (USER, FAR_LATER),
            (FAR_USER, LATER),
            (USER, &[(2, 2), (1001, 24), (0, 24)][..]),
            (&[(2, 2), (1001, 24), (0, 24)], LATER),
            (FAR_USER, &[(2, 2), (1001, 24), (0xABCDEE, 24)]),
            (FAR_USER, &[(2, 2), (1004, 24), (0x2BCDEF, 24)]),
        ] {
            self.message(&[&ends(first, last), after]);
        }
        // 11 comes before what is missing or left over behind it; a second end cut short by one
        // bit is 4, whatever it would have said.
        self.message(&[&ends(LATER, USER)]);
        self.message(&[&ends(LATER, USER), after, &[(0, 9)]]);
        self.message(&[&ends(LATER, &[(1, 2), (0, 23)])]);
        self.message(&[&ends(FAR_USER, &[(2, 2), (0, 24), (0, 23)])]);
        // The two ends of the number space.
        let (lowest, highest): (Row, Row) = (&[(1, 2), (0, 24)], &[(1, 2), (0xFF_FFFF, 24)]);
        let (up_to_63, from_63): (Row, Row) = (&[(1, 2), (63, 24)], &[(1, 2), (0xFF_FFC0, 24)]);
        self.message(&[&ends(lowest, up_to_63), after]);
        self.message(&[&ends(from_63, highest), after]);
        self.message(&[&ends(highest, lowest), after]);
    }

    /// DEACTIVATE has no O-bit: what ACTIVATE may have behind its users is left over here.
    fn no_option(&mut self) {
        let one_user: Row = &[DEACTIVATE, &[(1, 4)], USER].concat();
        let dispatcher: Row = &[(1, 1), (1, 1), (1, 4), (1, 2), (9, 24)];
        for rest in [
            &[(0, 1)],
            &[(1, 1)],
            &[(0, 2)][..],
            &[(1, 1), (0, 1)],
            &[(1, 1), (1, 1), (0, 4)],
            dispatcher,
        ] {
            self.message(&[one_user, rest]);
        }
    }
}
