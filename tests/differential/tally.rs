//! How often each answer came, each message where the answer was 0, and each element where it was
//! 4.

use crate::breakable::MESSAGES;
use crate::element::NAMES as ELEMENTS;

const ANSWERS: usize = 32;

pub struct Tally {
    answers: [u64; ANSWERS],
    messages: [u64; ANSWERS],
}

impl Tally {
    pub fn new() -> Self {
        Tally {
            answers: [0; ANSWERS],
            messages: [0; ANSWERS],
        }
    }

    /// Both sides gave this answer, so it is one of the model's.
    pub fn add(&mut self, answer: u32, pdu: u8) {
        self.answers[answer as usize] += 1;
        if answer == 0 {
            self.messages[usize::from(pdu)] += 1;
        }
    }

    pub fn count(&self) -> u64 {
        self.answers.iter().sum()
    }

    /// Whether just these answers came, each of them, and each of the fifteen messages.
    pub fn gave_all(&self, wanted: &[usize]) -> bool {
        let mut all = true;
        for answer in 0..ANSWERS {
            if wanted.contains(&answer) != (self.answers[answer] > 0) {
                println!("answer {answer} came {} times", self.answers[answer]);
                all = false;
            }
        }
        for (pdu, name) in MESSAGES {
            if self.messages[pdu as usize] == 0 {
                println!("no {name} came");
                all = false;
            }
        }
        all
    }

    pub fn print(&self, what: &str) {
        println!("{} {what}, the same on both sides", self.count());
        let mut parts = Vec::new();
        for (answer, count) in self.answers.iter().enumerate() {
            if *count > 0 {
                parts.push(format!("{answer}: {count}"));
            }
        }
        println!("  answers {}", parts.join(", "));
        let of_each: Vec<String> = MESSAGES
            .iter()
            .map(|(pdu, name)| format!("{name} {}", self.messages[*pdu as usize]))
            .collect();
        println!("  of answer 0: {}", of_each.join(", "));
    }
}

/// Of the reads that broke off: how often in each element.
pub struct Breaks {
    /// With nothing of the element there, and with some of it.
    elements: [[u64; 2]; ELEMENTS.len()],
}

impl Breaks {
    pub fn new() -> Self {
        Breaks {
            elements: [[0; 2]; ELEMENTS.len()],
        }
    }

    /// The element by its number.
    pub fn add(&mut self, element: u32, some_there: bool) {
        self.elements[element as usize - 1][usize::from(some_there)] += 1;
    }

    /// Whether each element came, and each of several bits with some of them there.
    pub fn gave_all(&self) -> bool {
        let one_bit = [
            "mask-present",
            "result",
            "o-bit",
            "p-bit",
            "activation-type",
            "interception-type",
        ];
        let mut all = true;
        for (name, [none_there, some_there]) in ELEMENTS.iter().zip(self.elements) {
            // A message of no bits is refused with 3.
            let none_wanted = *name != "ss-type";
            let some_wanted = !one_bit.contains(name);
            if none_wanted != (none_there > 0) || some_wanted != (some_there > 0) {
                println!("{name} broke off {none_there} and {some_there} times");
                all = false;
            }
        }
        all
    }

    pub fn print(&self) {
        let of_each: Vec<String> = ELEMENTS
            .iter()
            .zip(self.elements)
            .map(|(name, times)| format!("{name} {}", times[0] + times[1]))
            .collect();
        println!("  of answer 4: {}", of_each.join(", "));
    }
}

/// Of the reads: how often each of some lengths came, long messages and both sides of the bounds.
pub struct Lengths {
    times: [u64; LENGTHS.len()],
}

const LENGTHS: [&str; 7] = [
    "over 2,048 bits, read",
    "3,119 bits, read",
    "2,049 bits, not 3",
    "4,096 bits, not 3",
    "4,097 bits, 3",
    "4 over 2,047",
    "27 over 2,047",
];

impl Lengths {
    pub fn new() -> Self {
        Lengths {
            times: [0; LENGTHS.len()],
        }
    }

    /// The position is that of a 4.
    pub fn add(&mut self, answer: u32, bits: usize, position: usize) {
        let came = [
            answer == 0 && bits > 2048,
            answer == 0 && bits == 3119,
            answer > 3 && bits == 2049,
            answer > 3 && bits == 4096,
            answer == 3 && bits == 4097,
            answer == 4 && position > 2047,
            answer == 27 && bits > 2047,
        ];
        for (times, came) in self.times.iter_mut().zip(came) {
            *times += u64::from(came);
        }
    }

    pub fn gave_all(&self) -> bool {
        self.times.iter().all(|times| *times > 0)
    }

    pub fn print(&self) {
        let of_each: Vec<String> = LENGTHS
            .iter()
            .zip(self.times)
            .map(|(words, times)| format!("{words}: {times}"))
            .collect();
        println!("  of the lengths: {}", of_each.join("; "));
    }
}
