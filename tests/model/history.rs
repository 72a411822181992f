//! Script lines for the replay in long histories, decided by the seed alone.
//! Each line is run as it is drawn, so that the next one can aim at what is there.

mod calls;
mod cast;
mod damage;
mod deactivations;
mod interrogations;
mod lent;
mod moves;
mod odd;
mod orders;
mod profiles;
mod scene;
mod share_rows;
mod share_scene;
mod shares;

use crate::dice::Dice;
use crate::draw::user_ranges;
use crate::places::Call;
use crate::profile::sample;
use crate::records::MOST_RECORDS;
use crate::replay::Replay;
use crate::script::{read_script_line, Line};
use cast::Cast;
use std::collections::VecDeque;
use std::io::{self, Write};

/// The last of so many parts has over 128 records, which no line can take back.
const PARTS: u64 = 40;

/// Writes `count` lines; the last has no LF if the seed is odd.
pub fn write_script(seed: u64, count: u64, out: &mut dyn Write) -> io::Result<()> {
    let mut source = Source::new(seed);
    for number in 1..=count {
        if number == count - count / PARTS {
            source.begin_many_records();
        }
        let mut line = source.next_line();
        let ends = number < count || seed % 2 == 0;
        if !ends && line.is_empty() {
            // An empty rest would be no line, and the count would be one short.
            line = b"dump".to_vec();
        }
        out.write_all(&line)?;
        if ends {
            out.write_all(b"\n")?;
        }
    }
    Ok(())
}

/// What a stretch of a history does most.
#[derive(Clone, Copy)]
enum Mood {
    Fill,
    Drain,
    Mix,
}

pub struct Source {
    dice: Dice,
    replay: Replay,
    cast: Cast,
    mood: Mood,
    mood_left: usize,
    history_left: usize,
    /// Lines that follow whatever the desk answers.
    waiting: VecDeque<Vec<u8>>,
    many_records: bool,
}

impl Source {
    pub fn new(seed: u64) -> Self {
        let mut dice = Dice::new(seed);
        let cast = Cast::draw(&mut dice, sample().home_extension);
        let mut source = Source {
            dice,
            replay: Replay::new(),
            cast,
            mood: Mood::Mix,
            mood_left: 0,
            history_left: 400,
            waiting: VecDeque::new(),
            many_records: false,
        };
        source.draw_records(&sample());
        source
    }

    pub fn next_line(&mut self) -> Vec<u8> {
        let line = loop {
            let line = match self.waiting.pop_front() {
                Some(line) => line,
                None => self.draw_line(),
            };
            if self.many_records || !is_record_over_most(&line) {
                break line;
            }
        };
        self.replay.run(&line);
        line
    }

    fn draw_line(&mut self) -> Vec<u8> {
        if self.history_left == 0 || user_ranges(&self.replay.desk.profile).is_empty() {
            return self.new_history();
        }
        self.history_left -= 1;
        if self.mood_left == 0 {
            self.mood = self.dice.pick(&[Mood::Fill, Mood::Drain, Mood::Mix]);
            self.mood_left = 20 + self.dice.below(150);
        }
        self.mood_left -= 1;
        match self.dice.below(200) {
            0..=7 => self.odd_line(),
            8..=13 => b"dump".to_vec(),
            14..=16 => profiles::bad_line(&mut self.dice, &self.replay.desk.profile),
            17..=20 => self.damage(),
            21..=28 => self.record_line(),
            29..=31 => self.output_line(),
            32..=34 => self.scene(),
            35..=69 => match self.repair() {
                Some(line) => line,
                None => self.call(),
            },
            70..=73 => self.two_grounds(),
            74..=77 => self.shift(),
            78..=82 => self.faulty_deactivation(),
            83..=90 => self.broken_off(),
            91..=92 => self.share_scene(),
            93..=95 => self.share_change(),
            96..=98 => self.interrogations(),
            99..=108 => self.interrogate_ack(),
            109 if self.dice.one_in(3) => {
                profiles::line_by_pairs(&mut self.dice, &self.replay.desk.profile)
            }
            _ => self.call(),
        }
    }

    /// Another profile, mostly, and other records.
    fn new_history(&mut self) -> Vec<u8> {
        let profile = profiles::draw(&mut self.dice);
        self.cast = Cast::draw(&mut self.dice, profile.home_extension);
        self.history_left = 100 + self.dice.below(900);
        self.draw_records(&profile);
        profiles::line_or_longer(&mut self.dice, &profile)
    }

    fn odd_line(&mut self) -> Vec<u8> {
        let good = match self.dice.below(9) {
            0 => profiles::line(&self.replay.desk.profile),
            1 => self.record_line(),
            2 => b"place 31 16383 0".to_vec(),
            3 => b"second 31 0".to_vec(),
            4 => b"cause 31 31".to_vec(),
            5 => self.share_change(),
            _ => self.call(),
        };
        odd::line(&mut self.dice, &good)
    }

    fn calls_waiting(&self) -> Vec<Call> {
        self.replay.desk.places.iter().flatten().copied().collect()
    }
}

fn is_record_over_most(line: &[u8]) -> bool {
    match read_script_line(line) {
        Some(Line::Record { number, .. }) => number >= MOST_RECORDS,
        _ => false,
    }
}
