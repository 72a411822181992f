//! Laws of DEACTIVATE over long histories: its answer told a second way, from records and users
//! alone, and beside ACTIVATE's on copies of desk and records.

use super::laws::{enough, run_history, Laws, LINES_OF_HISTORY};
use super::Report;
use crate::ack::Ack;
use crate::desk::{Answer, Desk, Lent};
use crate::event::named;
use crate::message::{read, Group, Message};
use crate::profile::Profile;
use crate::records::{identities_of, Identity, Record};
use crate::refusal::Refusal::{self, Number};
use crate::replay::{refused, Replay};
use crate::script::Line;
use crate::step::Step;
use crate::write::{bits_of, bytes_of};
use std::io;

const SEEDS: [u64; 3] = [13, 14, 15];

named! { Law, LAWS:
    AsTold: "is answered as told from records and users",
    RefusedAsActivate: "is refused as ACTIVATE is",
    AcksAsActivate: "has ACTIVATE's ACKs but for the type",
    MasksPart: "has masks that part the identities",
    OnlyAcceptedCleared: "clears the accepted marks and changes nothing else of the records",
    CallsStay: "leaves every waiting call",
    MarksAfterActivate: "after an ACTIVATE of its users leaves what it leaves without one",
}

/// What the histories showed so far, on how many.
#[derive(Default)]
struct Seen {
    laws: Laws<Law>,
    carried_out: usize,
    refused: usize,
    with_masks: usize,
}

pub(super) fn histories(report: &mut Report) -> io::Result<()> {
    let mut seen = Seen::default();
    for seed in SEEDS {
        seen.follow(seed);
    }
    let lines = SEEDS.len() * LINES_OF_HISTORY;
    let all = format!("desk: {lines} lines: DEACTIVATE");
    seen.laws.check(report, &all, LAWS)?;
    let Seen {
        carried_out,
        refused,
        with_masks,
        ..
    } = seen;
    report.check(
        &format!(
            "{all} carried out {carried_out} times, {with_masks} with masks, refused {refused}"
        ),
        enough(&[carried_out, with_masks, refused]),
    )
}

/// What a call on copies of desk and records gave, and what it left.
struct Tried {
    answer: Result<Answer, Refusal>,
    desk: Desk,
    records: Vec<Record>,
    output: Vec<u8>,
}

/// A message from a post on copies, with an output area of AA.
fn try_message(
    desk: &Desk,
    records: &[Record],
    output_bytes: usize,
    post: u32,
    message: &Message,
) -> Tried {
    let mut tried = Tried {
        answer: Err(Number(0)),
        desk: desk.clone(),
        records: records.to_vec(),
        output: vec![0xAA; output_bytes],
    };
    let bits = bits_of(&desk.profile, message);
    let lent = Lent {
        records: &mut tried.records,
        output: &mut tried.output,
    };
    tried.answer = tried.desk.message(lent, post, &bytes_of(&bits), bits.len());
    tried
}

impl Seen {
    fn follow(&mut self, seed: u64) {
        run_history(seed, |line, step| {
            if let Line::Post { post, bits, bytes } = line {
                if let Ok(Message::Deactivate { users }) =
                    read(&step.before.desk.profile, &bytes, bits)
                {
                    self.judge(step, post, &users);
                }
            }
        });
    }

    fn judge(&mut self, step: Step, post: u32, users: &Group) {
        let Replay {
            desk,
            records,
            output_bytes,
        } = step.before;
        let answer = step.answer;
        let deactivate = Message::Deactivate {
            users: users.clone(),
        };
        let activate = Message::Activate {
            users: users.clone(),
            dispatchers: None,
        };
        let tried = |records: &[Record], message: &Message| {
            try_message(desk, records, *output_bytes, post, message)
        };
        let cleared = tried(records, &deactivate);
        let marked = tried(records, &activate);
        let as_activate = match (&cleared.answer, &marked.answer) {
            (Err(one), Err(other)) => {
                one == other && answer == refused(*one) && cleared.records == *records
            }
            (Ok(_), Ok(_)) => answer.starts_with("acks"),
            _ => false,
        };
        self.laws.hold(Law::RefusedAsActivate, as_activate);
        if cleared.answer.is_err() {
            self.refused += 1;
            return;
        }
        self.carried_out += 1;
        let told = told(&desk.profile, records, post, users);
        self.laws.hold(Law::AsTold, answer == told);
        let same = same_but_type(&desk.profile, &cleared, &marked);
        self.laws.hold(Law::AcksAsActivate, same);
        self.masks(&desk.profile, &cleared, users);
        self.laws.hold(Law::CallsStay, cleared.desk == *desk);
        let wanted = without_marks(desk, records, post, users);
        self.laws
            .hold(Law::OnlyAcceptedCleared, cleared.records == wanted);
        let after = tried(&marked.records, &deactivate);
        let same = after.records == cleared.records && after.output == cleared.output;
        self.laws.hold(Law::MarksAfterActivate, same);
    }

    fn masks(&mut self, profile: &Profile, tried: &Tried, users: &Group) {
        let acks = acks_of(profile, tried);
        let count = identities_of(profile, users).len();
        let same_users = acks.iter().all(|ack| ack.users == *users);
        let one = acks.len() == 1 && acks[0].mask.is_none();
        let part = (0..count).all(|identity| {
            let ones = acks
                .iter()
                .filter(|ack| ack.mask.as_ref().map_or(false, |mask| mask[identity]));
            ones.count() == 1
        });
        self.with_masks += usize::from(!one);
        let good = same_users && (one || (acks.len() > 1 && part));
        self.laws.hold(Law::MasksPart, good);
    }
}

/// The ACKs that stand in the output area, read back.
fn acks_of(profile: &Profile, tried: &Tried) -> Vec<Ack> {
    let mut acks = Vec::new();
    if let Ok(Answer::Acks { bits }) = &tried.answer {
        for (number, bits) in bits.iter().enumerate() {
            match read(profile, &tried.output[100 * number..], *bits) {
                Ok(Message::DeactivateAck(ack)) => acks.push(ack),
                _ => return Vec::new(),
            }
        }
    }
    acks
}

/// Types 5 and 3 differ in two bits of a message's byte 1: 101 and 011 stand at its top.
fn same_but_type(profile: &Profile, cleared: &Tried, marked: &Tried) -> bool {
    let mut output = marked.output.clone();
    if let Ok(Answer::Acks { bits }) = &marked.answer {
        for number in 0..bits.len() {
            output[100 * number + 1] ^= 0b1100_0000;
        }
    }
    let of_type_5 = !acks_of(profile, cleared).is_empty();
    of_type_5 && cleared.answer == marked.answer && cleared.output == output
}

/// The record of an identity, looked for a second way: from the last one down.
fn lowest(records: &[Record], identity: Identity) -> Option<usize> {
    let mut found = None;
    for number in (0..records.len()).rev() {
        let record = &records[number];
        if record.in_use && (record.ssi, record.extension) == (identity.ssi, identity.extension) {
            found = Some(number);
        }
    }
    found
}

fn without_marks(desk: &Desk, records: &[Record], post: u32, users: &Group) -> Vec<Record> {
    let mut records = records.to_vec();
    for identity in identities_of(&desk.profile, users) {
        if let Some(number) = lowest(&records, identity) {
            if records[number].post == post {
                records[number].active = false;
            }
        }
    }
    records
}

/// The answer in words, put together from digits 0 and 1.
fn told(profile: &Profile, records: &[Record], post: u32, users: &Group) -> String {
    let outcomes: Vec<Option<u32>> = identities_of(profile, users)
        .into_iter()
        .map(|identity| match lowest(records, identity) {
            None => Some(profile.reason_no_record),
            Some(number) if records[number].post != post => Some(profile.reason_other_post),
            Some(_) => None,
        })
        .collect();
    let mut order = vec![None, Some(profile.reason_no_record)];
    if profile.reason_other_post != profile.reason_no_record {
        order.push(Some(profile.reason_other_post));
    }
    order.retain(|outcome| outcomes.contains(outcome));

    let mut users_digits = format!("{:06b}00101{:04b}", profile.ss_type, users.range);
    for address in &users.addresses {
        users_digits += &format!("{:02b}{:024b}", address.kind, address.ssi);
        if address.kind == 2 {
            users_digits += &format!("{:024b}", address.extension);
        }
    }
    let (mut lengths, mut hexes) = (String::new(), String::new());
    for outcome in &order {
        let mut digits = users_digits.clone();
        if order.len() == 1 {
            digits.push('0');
        } else {
            digits.push('1');
            for other in &outcomes {
                digits.push(if other == outcome { '1' } else { '0' });
            }
        }
        digits += &outcome.map_or("1".to_string(), |reason| format!("0{reason:07b}"));
        lengths += &format!(" {}", digits.len());
        hexes += &format!(" {}", hex_of_digits(digits));
    }
    format!("acks {}{lengths}{hexes}", order.len())
}

fn hex_of_digits(mut digits: String) -> String {
    while digits.len() % 8 != 0 {
        digits.push('0');
    }
    let mut hex = String::new();
    for four in digits.as_bytes().chunks(4) {
        let number = four
            .iter()
            .fold(0, |so_far, digit| 2 * so_far + (digit - b'0'));
        hex += &format!("{number:X}");
    }
    hex
}
