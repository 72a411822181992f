//! Laws of where a message broke off, on drawn messages, good, broken off or with faults, under
//! drawn profiles. The trail tells them a second way.

use super::laws::{enough, Laws};
use super::Report;
use crate::break_off;
use crate::dice::Dice;
use crate::draw;
use crate::event::named;
use crate::fault;
use crate::message::{read, Message};
use crate::profile::Profile;
use crate::refusal::Refusal::{self, BrokeOff, Number};
use crate::trail::trail;
use crate::user_fault;
use crate::write::bytes_of;
use std::io;

const DRAWN_MESSAGES: usize = 30_000;

named! { Law, LAWS:
    WhenPast: "is 4 exactly if an element along the bits reaches past the length",
    First: "breaks off in the first element that does",
    Within: "breaks off at a position of at most its length",
    Inside: "cut anywhere inside that element breaks off there",
    Before: "cut before that element breaks off before it",
    Behind: "breaks off there whatever its bits past the length are",
}

pub(super) fn check(report: &mut Report) -> io::Result<()> {
    let mut dice = Dice::new(17);
    let mut laws = Laws::default();
    let (mut broken, mut refused, mut whole) = (0, 0, 0);
    for _ in 0..DRAWN_MESSAGES {
        let profile = draw::profile(&mut dice);
        let (bytes, length) = drawn(&mut dice, &profile);
        match judge(&mut laws, &mut dice, &profile, &bytes, length) {
            Ok(_) => whole += 1,
            Err(BrokeOff { .. }) => broken += 1,
            Err(Number(_)) => refused += 1,
        }
    }
    let all = format!("4: {DRAWN_MESSAGES} drawn messages: one");
    laws.check(report, &all, LAWS)?;
    report.check(
        &format!("{all} broke off {broken} times, was refused {refused} and read {whole} times"),
        enough(&[broken, refused, whole]),
    )
}

fn drawn(dice: &mut Dice, profile: &Profile) -> (Vec<u8>, usize) {
    let has_users = !draw::user_ranges(profile).is_empty();
    let mut bits = match dice.below(8) {
        0 => fault::sound(dice, profile),
        1 => fault::content(dice, profile),
        2 if has_users => user_fault::range_ends(dice, profile),
        3 => fault::kind(dice, profile),
        4 => fault::options(dice, profile),
        _ => return break_off::message(dice, profile),
    };
    if dice.one_in(2) {
        fault::touch(dice, &mut bits);
    }
    (bytes_of(&bits), bits.len())
}

fn judge(
    laws: &mut Laws<Law>,
    dice: &mut Dice,
    profile: &Profile,
    bytes: &[u8],
    length: usize,
) -> Result<Message, Refusal> {
    let answer = read(profile, bytes, length);
    if length == 0 {
        return answer;
    }
    let spans = trail(profile, bytes, length);
    let first_past = spans.iter().find(|span| span.reaches_past(length));
    let is_4 = matches!(&answer, Err(refusal) if refusal.number() == 4);
    laws.hold(Law::WhenPast, is_4 == first_past.is_some());
    if let (Err(refusal), Some(span)) = (&answer, first_past) {
        let (position, element) = (span.begin, span.element);
        let there = BrokeOff { position, element };
        laws.hold(Law::First, *refusal == there);
        laws.hold(Law::Within, position <= length);
        for shorter in position.max(1)..length {
            let same = read(profile, bytes, shorter) == Err(there);
            laws.hold(Law::Inside, same);
        }
        if position > 1 {
            let shorter = 1 + dice.below(position - 1);
            let earlier = match read(profile, bytes, shorter) {
                Err(BrokeOff { position, .. }) => position <= shorter,
                _ => false,
            };
            laws.hold(Law::Before, earlier);
        }
        let other = with_other_rest(dice, bytes, length);
        laws.hold(Law::Behind, read(profile, &other, length) == Err(there));
    }
    answer
}

/// The same bits up to the length, and any others behind it.
fn with_other_rest(dice: &mut Dice, bytes: &[u8], length: usize) -> Vec<u8> {
    let mut other = dice.bytes(bytes.len() + 2);
    for place in 0..length {
        let top = 0x80 >> (place % 8);
        other[place / 8] = other[place / 8] & !top | bytes[place / 8] & top;
    }
    other
}
