//! Input lines for the listing, as many as asked for, decided by the seed alone.
//! Each round cuts one valid message short at every bit length and adds other lines, many of which
//! break off too.

use crate::break_off;
use crate::dice::Dice;
use crate::fault;
use crate::interrogation_fault::interrogation;
use crate::line::line_of;
use crate::odd;
use crate::profile::{sample, Profile};
use crate::user_fault;
use crate::write::bytes_of;
use std::collections::VecDeque;
use std::io::{self, Write};

const OTHER_LINES_A_ROUND: usize = 160;

/// Writes `count` lines; the last has no LF if the seed is odd.
pub fn generate(seed: u64, count: u64, out: &mut dyn Write) -> io::Result<()> {
    let mut source = Source {
        profile: sample(),
        dice: Dice::new(seed),
        waiting: VecDeque::new(),
    };
    for number in 1..=count {
        let mut line = source.next_line();
        let ends = number < count || seed % 2 == 0;
        if !ends && line.is_empty() {
            // An empty rest would be no line, and the count would be one short.
            line = b"11 25A0".to_vec();
        }
        out.write_all(&line)?;
        if ends {
            out.write_all(b"\n")?;
        }
    }
    Ok(())
}

struct Source {
    profile: Profile,
    dice: Dice,
    waiting: VecDeque<Vec<u8>>,
}

impl Source {
    fn next_line(&mut self) -> Vec<u8> {
        loop {
            if let Some(line) = self.waiting.pop_front() {
                return line;
            }
            self.round();
        }
    }

    fn round(&mut self) {
        self.cut_short();
        for _ in 0..OTHER_LINES_A_ROUND {
            let line = self.other_line();
            // An LF among the bytes makes several lines of one.
            for part in line.split(|byte| *byte == b'\n') {
                self.waiting.push_back(part.to_vec());
            }
        }
    }

    /// A valid message at every bit length from 0 to its own, with or without the bytes left.
    fn cut_short(&mut self) {
        let bits = fault::sound(&mut self.dice, &self.profile);
        let whole = bytes_of(&bits);
        let bytes_stay = self.dice.one_in(2);
        for length in 0..=bits.len() {
            let line = if bytes_stay {
                line_of(length, &whole)
            } else {
                line_of(length, &bytes_of(&bits[..length]))
            };
            self.waiting.push_back(line);
        }
    }

    fn other_line(&mut self) -> Vec<u8> {
        let (dice, profile) = (&mut self.dice, &self.profile);
        let mut bits = match dice.below(160) {
            0..=24 => fault::sound(dice, profile),
            25..=29 => fault::ss_type(dice, profile),
            30..=37 => fault::pdu_type(dice, profile),
            38..=47 => user_fault::range_ends(dice, profile),
            48..=54 => user_fault::range(dice, profile),
            55..=60 => fault::kind(dice, profile),
            61..=66 => fault::option(dice, profile),
            67..=69 => user_fault::mask(dice, profile),
            70..=75 => fault::content(dice, profile),
            76..=79 => {
                let mut bits = fault::sound(dice, profile);
                fault::leave_over(dice, &mut bits);
                bits
            }
            80..=84 => {
                let mut bits = fault::sound(dice, profile);
                fault::flip(dice, &mut bits);
                bits
            }
            85..=87 => return self.too_few_bytes(),
            88..=89 => return self.near_most_bits(),
            90..=95 => fault::about_waiting_call(dice, profile),
            96..=101 => fault::options(dice, profile),
            102..=109 => user_fault::deactivation(dice, profile),
            110..=133 => {
                let (bytes, length) = break_off::message(dice, profile);
                return line_of(length, &bytes);
            }
            134..=146 => interrogation(dice, profile),
            147..=149 => return self.near_most_bits(),
            _ => return self.odd_line(),
        };
        if dice.one_in(6) {
            fault::touch(dice, &mut bits);
        }
        self.dressed(&bits)
    }

    /// The same message in a line that says no more: zeros before the length, and spare bits
    /// and further bytes of any value.
    fn dressed(&mut self, bits: &[bool]) -> Vec<u8> {
        let dice = &mut self.dice;
        let mut bytes = bytes_of(bits);
        if dice.one_in(3) {
            let spare = 8 * bytes.len() - bits.len();
            if let Some(last) = bytes.last_mut() {
                *last |= (dice.number(8) & ((1 << spare) - 1)) as u8;
            }
        }
        if dice.one_in(4) {
            let more = match dice.below(8) {
                0 => dice.pick(&[256, 512]) - bytes.len().min(256),
                _ => dice.below(4),
            };
            bytes.extend(dice.bytes(more));
        }
        let mut line = line_of(bits.len(), &bytes);
        if dice.one_in(8) {
            let digits = bits.len().to_string().len();
            let zeros = dice.below(5 - digits.min(4));
            line.splice(0..0, vec![b'0'; zeros]);
        }
        line
    }

    /// More bits announced than the bytes hold: one more, a byte more, or far more.
    fn too_few_bytes(&mut self) -> Vec<u8> {
        let dice = &mut self.dice;
        let bits = fault::sound(dice, &self.profile);
        let mut bytes = bytes_of(&bits);
        if dice.one_in(2) {
            bytes.truncate(dice.below(bytes.len() + 1));
        }
        let over = dice.pick(&[0, 1, 1, 2, 8, 9, 64, 2048, 4096]);
        line_of(bits.len().max(8 * bytes.len()) + over, &bytes)
    }

    /// Around 4,096 bits and 512 bytes, or around the half of them, which were the most before
    /// request (viii); beginning as a message does.
    fn near_most_bits(&mut self) -> Vec<u8> {
        let dice = &mut self.dice;
        let mut bits = fault::sound(dice, &self.profile);
        let own = bits.len();
        let most = dice.pick(&[2048, 4096, 4096]);
        let byte_count = most / 8 - 3 + dice.below(6);
        let rest = 8 * byte_count - own;
        if dice.one_in(2) {
            bits.extend(dice.bits(rest));
        } else {
            bits.extend(vec![false; rest]);
        }
        let length = match dice.below(5) {
            0 => own,
            1 => 8 * byte_count,
            2 => 8 * byte_count + 1,
            3 => dice.pick(&[most - 1, most, most + 1]),
            _ => most - 18 + dice.below(40),
        };
        line_of(length, &bytes_of(&bits))
    }

    fn odd_line(&mut self) -> Vec<u8> {
        let bits = fault::sound(&mut self.dice, &self.profile);
        let good = line_of(bits.len(), &bytes_of(&bits));
        odd::line(&mut self.dice, &good)
    }
}
