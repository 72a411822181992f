//! How often a message broke off in each of its elements: in lines for the listing, or in messages
//! of posts in a script for the replay, both run on the model. It also says whether each of them
//! came at least once.

use crate::breakable::{rows, MESSAGES, NO_TYPE};
use crate::element::Element;
use crate::event::{header_of, named};
use crate::line::{lines_of, read_line};
use crate::message::read;
use crate::profile::{sample, Profile};
use crate::refusal::Refusal;
use crate::script::Line;
use crate::step::{run_lines, Step};
use crate::trail::{trail, Part, Span};
use std::collections::BTreeMap;
use std::io::{self, Write};

named! { Cut, CUTS:
    Nothing: "with nothing of the element there",
    Some: "with some of the element there",
    AllButOne: "with all of the element there but one bit, of several",
    BytesBehind: "with bytes behind the bit length",
}

named! { Meeting, MEETINGS:
    Damage1: "1 for a message that breaks off",
    Post2: "2 for a message that breaks off",
    Before14: "4, the output being short too",
    Before15: "4, records being unsound too",
    AnotherType: "4 in a message that posts don't send",
    AnotherProfile: "4 under another profile than the sample",
}

#[derive(Default)]
struct Breaks {
    /// By type, element and part.
    places: BTreeMap<(u32, Element, Part), u64>,
    cuts: BTreeMap<Cut, u64>,
    meetings: BTreeMap<Meeting, u64>,
}

/// Lines for the listing; prints the counts, false if something never came.
pub fn count_in_listing(input: &[u8], out: &mut dyn Write) -> io::Result<bool> {
    let profile = sample();
    let mut breaks = Breaks::default();
    for (length, bytes) in lines_of(input).into_iter().filter_map(read_line) {
        if let Some(span) = broken_off(&profile, &bytes, length) {
            breaks.count(span, &bytes, length);
        }
    }
    Ok(breaks.print_places(out)? & print(CUTS, &breaks.cuts, out)?)
}

/// A script for the replay; prints the counts, false if something never came.
pub fn count_in_replay(script: &[u8], out: &mut dyn Write) -> io::Result<bool> {
    let mut breaks = Breaks::default();
    run_lines(lines_of(script), |line, step| {
        if let Line::Post { bits, bytes, .. } = line {
            if let Some(span) = broken_off(&step.before.desk.profile, &bytes, bits) {
                breaks.meet(step, span, &bytes, bits);
            }
        }
    });
    Ok(breaks.print_places(out)?
        & print(CUTS, &breaks.cuts, out)?
        & print(MEETINGS, &breaks.meetings, out)?)
}

/// The element at which reading stops with a 4, if it does.
fn broken_off(profile: &Profile, bytes: &[u8], length: usize) -> Option<Span> {
    match read(profile, bytes, length) {
        Err(Refusal::BrokeOff { .. }) => trail(profile, bytes, length).pop(),
        _ => None,
    }
}

impl Breaks {
    /// What the desk answers to such a message of a post.
    fn meet(&mut self, step: Step, span: Span, bytes: &[u8], length: usize) {
        let mut meets = |came: bool, meeting| {
            if came {
                *self.meetings.entry(meeting).or_insert(0) += 1;
            }
        };
        match step.answer {
            "refused 1" => meets(true, Meeting::Damage1),
            "refused 2" => meets(true, Meeting::Post2),
            _ => {
                let pdu_type = type_of(&span, bytes, length);
                let sent = [NO_TYPE, 2, 4, 8, 12, 15, 17].contains(&pdu_type);
                meets(step.output_was_short(), Meeting::Before14);
                meets(step.records_were_unsound(), Meeting::Before15);
                meets(!sent, Meeting::AnotherType);
                let under_sample = step.before.desk.profile == sample();
                meets(!under_sample, Meeting::AnotherProfile);
                self.count(span, bytes, length);
            }
        }
    }

    fn count(&mut self, span: Span, bytes: &[u8], length: usize) {
        let place = (type_of(&span, bytes, length), span.element, span.part);
        *self.places.entry(place).or_insert(0) += 1;
        let there = length - span.begin;
        let mut cuts = |came: bool, cut| {
            if came {
                *self.cuts.entry(cut).or_insert(0) += 1;
            }
        };
        cuts(there == 0, Cut::Nothing);
        cuts(there > 0, Cut::Some);
        cuts(there > 0 && there + 1 == span.width, Cut::AllButOne);
        cuts(8 * bytes.len() >= length + 8, Cut::BytesBehind);
    }

    /// A line for each element of each message, and below it where it stood, if that may differ.
    fn print_places(&self, out: &mut dyn Write) -> io::Result<bool> {
        let mut complete = true;
        for (pdu_type, name) in [(NO_TYPE, "")].iter().chain(&MESSAGES) {
            for (element, parts) in rows(*pdu_type) {
                let times = |part: &Part| {
                    let place = (*pdu_type, *element, *part);
                    self.places.get(&place).copied().unwrap_or(0)
                };
                let all: u64 = parts.iter().map(times).sum();
                writeln!(
                    out,
                    "{all:9} {}",
                    format!("{name} {}", element.name()).trim()
                )?;
                if parts.len() > 1 {
                    for part in *parts {
                        writeln!(out, "{:15} {}", times(part), part.words())?;
                    }
                }
                complete &= parts.iter().all(|part| times(part) > 0);
            }
        }
        Ok(complete)
    }
}

/// Of a message that breaks off in its header the type isn't known yet.
fn type_of(span: &Span, bytes: &[u8], length: usize) -> u32 {
    match span.element {
        Element::SsType | Element::PduType => NO_TYPE,
        _ => header_of(bytes, length).map_or(NO_TYPE, |(_, pdu_type)| pdu_type),
    }
}

/// How often each of the events came, in their order; false if one never did.
pub fn print<E: Ord>(
    events: &[(E, &str)],
    counts: &BTreeMap<E, u64>,
    out: &mut dyn Write,
) -> io::Result<bool> {
    let mut complete = true;
    for (event, words) in events {
        let times = counts.get(event).copied().unwrap_or(0);
        writeln!(out, "{times:9} {words}")?;
        complete &= times > 0;
    }
    Ok(complete)
}
