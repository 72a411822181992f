//! Reading, listing and the profile's rules, checked against document 01's worked cases.

use super::Report;
use crate::ack::{Ack, AckResult};
use crate::dice::Dice;
use crate::draw;
use crate::hex::read_hex;
use crate::listing::list;
use crate::message::{read, Group, Message};
use crate::profile::{sample, Meaning, Post, Profile};
use crate::refusal::Refusal::Number;
use crate::worked::{self, at_home, LISTING_INPUT, LISTING_OUTPUT};
use crate::write::{bits_of, bytes_of};
use std::io;

const RANDOM_MESSAGES: usize = 20_000;

/// A change to the sample profile and what it is called.
type Change = (&'static str, fn(&mut Profile));

pub fn check(report: &mut Report) -> io::Result<()> {
    worked_cases(report)?;
    ranges_of_case_10(report)?;
    acks_of_case_9(report)?;
    listing_example(report)?;
    profile_rules(report)?;
    written_and_read(report)
}

fn worked_cases(report: &mut Report) -> io::Result<()> {
    let profile = sample();
    let requests = [
        worked::request_cases(),
        worked::deactivation_cases(),
        worked::interrogation_cases(),
    ];
    for case in worked::cases()
        .into_iter()
        .chain(requests.into_iter().flatten())
    {
        let bytes = read_hex(case.hex.as_bytes()).unwrap_or_default();
        let mut good = read(&profile, &bytes, case.length) == case.expected;
        if let Ok(message) = &case.expected {
            let bits = bits_of(&profile, message);
            good &= bits.len() == case.length && bytes_of(&bits) == bytes;
        }
        let what = format!(
            "case {}: {}, {} bits: {:?}",
            case.name, case.hex, case.length, case.expected
        );
        report.check(&what, good)?;
    }
    Ok(())
}

fn ranges_of_case_10(report: &mut Report) -> io::Result<()> {
    let profile = sample();
    // Ties the row of elements to the paper's bytes before it is used for other spans.
    let paper = read_hex(b"245E8001F4A0007D80");
    let same = Some(bytes_of(&worked::activate_range_bits(4))) == paper;
    report.check("case 10: a span of 4 has the bytes of case 8", same)?;
    for (count, refused) in [(64, None), (65, Some(11)), (1, None)] {
        let bits = worked::activate_range_bits(count);
        let expected = match refused {
            Some(refusal) => Err(Number(refusal)),
            None => Ok(worked::activate_range(count)),
        };
        let good = read(&profile, &bytes_of(&bits), bits.len()) == expected;
        let what = format!("case 10: {count} identities: refusal {refused:?}");
        report.check(&what, good)?;
    }
    Ok(())
}

/// Of case 9 only what needs no desk: the bit lengths of the three ACKs.
fn acks_of_case_9(report: &mut Report) -> io::Result<()> {
    let rows = [
        ("1100", AckResult::Accepted, 73),
        ("0010", AckResult::NotAccepted { reason: 1 }, 80),
        ("0001", AckResult::NotAccepted { reason: 2 }, 80),
    ];
    let profile = sample();
    for (mask, result, length) in rows {
        let ack = Message::ActivateAck(Ack {
            users: Group {
                range: 15,
                addresses: vec![at_home(1001), at_home(1004)],
            },
            mask: Some(mask.chars().map(|bit| bit == '1').collect()),
            result,
        });
        let bits = bits_of(&profile, &ack);
        let good = bits.len() == length && read(&profile, &bytes_of(&bits), length) == Ok(ack);
        let what = format!("case 9: ACK with mask {mask} has {length} bits and is read back");
        report.check(&what, good)?;
    }
    Ok(())
}

fn listing_example(report: &mut Report) -> io::Result<()> {
    for ending in ["", "\n"] {
        let mut output = Vec::new();
        list(format!("{LISTING_INPUT}{ending}").as_bytes(), &mut output)?;
        let what = format!("listing: the example of three lines, ended by {ending:?}");
        report.check(&what, output == LISTING_OUTPUT.as_bytes())?;
    }
    let mut output = Vec::new();
    list(b"", &mut output)?;
    report.check("listing: no input, no output", output.is_empty())?;
    list(b"\n\n11 \n11 25A0\n", &mut output)?;
    let expected = b"1 refused 3\n2 refused 3\n3 refused 3\n4 ACCEPTED\n";
    report.check("listing: empty lines are lines", output == expected)
}

fn profile_rules(report: &mut Report) -> io::Result<()> {
    let breaks: [Change; 14] = [
        ("SS type 64", |p| p.ss_type = 64),
        ("home extension over 24 bits", |p| {
            p.home_extension = 1 << 24
        }),
        ("list of 0", |p| p.meanings[1] = Meaning::List(0)),
        ("list of 16", |p| p.meanings[9] = Meaning::List(16)),
        ("U over 7 bits", |p| p.reason_no_record = 128),
        ("N over 7 bits", |p| p.reason_other_post = 128),
        ("failure reason for no record over 3 bits", |p| {
            p.failure_no_record = 8
        }),
        ("failure reason for another post's over 3 bits", |p| {
            p.failure_other_post = 8
        }),
        ("no post", |p| p.posts.clear()),
        ("nine posts", |p| p.posts = posts(&[(0, 1); 9])),
        ("ceiling 0", |p| p.posts = posts(&[(0, 0)])),
        ("ceiling 33", |p| p.posts = posts(&[(0, 33)])),
        ("g over c", |p| p.posts = posts(&[(3, 2)])),
        ("sum of g 33", |p| p.posts = posts(&[(16, 16), (17, 17)])),
    ];
    for (rule, break_rule) in breaks {
        let mut profile = sample();
        break_rule(&mut profile);
        // A bit length of 0 shows that 1 stands before 3.
        let good = read(&profile, &[0x25, 0xA0], 11) == Err(Number(1))
            && read(&profile, &[], 0) == Err(Number(1));
        report.check(&format!("refusal 1: {rule}"), good)?;
    }
    let edges: [Change; 4] = [
        ("list of 15", |p| p.meanings[9] = Meaning::List(15)),
        ("largest extension, U, N and failure reasons", |p| {
            p.home_extension = (1 << 24) - 1;
            p.reason_no_record = 127;
            p.reason_other_post = 127;
            p.failure_no_record = 7;
            p.failure_other_post = 7;
        }),
        ("eight posts", |p| p.posts = posts(&[(4, 32); 8])),
        ("one post, g = c = 32", |p| p.posts = posts(&[(32, 32)])),
    ];
    for (edge, set) in edges {
        let mut profile = sample();
        set(&mut profile);
        let good = read(&profile, &[0x25, 0xA0], 11) == Ok(Message::Accepted);
        report.check(&format!("no refusal 1: {edge}"), good)?;
    }
    Ok(())
}

fn posts(shares: &[(u32, u32)]) -> Vec<Post> {
    shares
        .iter()
        .map(|(reserved, ceiling)| Post {
            reserved: *reserved,
            ceiling: *ceiling,
        })
        .collect()
}

fn written_and_read(report: &mut Report) -> io::Result<()> {
    let mut dice = Dice::new(2026);
    let (mut back, mut cut, mut longer, mut spare) = (true, true, true, true);
    for _ in 0..RANDOM_MESSAGES {
        let profile = draw::profile(&mut dice);
        let message = draw::message(&mut dice, &profile);
        let mut bits = bits_of(&profile, &message);
        let own = bits.len();
        let bytes = bytes_of(&bits);
        back &= read(&profile, &bytes, own).as_ref() == Ok(&message);

        let shorter = dice.below(own);
        let refusal = if shorter == 0 { 3 } else { 4 };
        let answer = read(&profile, &bytes, shorter);
        cut &= answer.map_err(|refusal| refusal.number()) == Err(refusal);

        bits.push(dice.one_in(2));
        longer &= read(&profile, &bytes_of(&bits), own + 1) == Err(Number(13));

        bits.extend(dice.bits(20));
        spare &= read(&profile, &bytes_of(&bits), own) == Ok(message);
    }
    let all = format!("{RANDOM_MESSAGES} random messages under random profiles");
    report.check(&format!("{all}: written and read back"), back)?;
    report.check(&format!("{all}: cut short anywhere, 4 (3 at 0)"), cut)?;
    report.check(&format!("{all}: one bit longer, 13"), longer)?;
    report.check(&format!("{all}: bits past the length not looked at"), spare)
}
