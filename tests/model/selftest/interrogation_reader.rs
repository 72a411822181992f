//! INTERROGATE ACK read once more, from a row of bits and table 27 alone; and wrong readings of it.
//! Each has to differ from the model's on drawn messages, or these would not show a product that
//! reads so.

use super::Report;
use crate::dice::Dice;
use crate::draw;
use crate::event::named;
use crate::interrogate_ack::{Areas, Groups, InterrogateAck, Interrogation};
use crate::interrogation_fault::{interrogation, longest};
use crate::message::{read, Address, Group, Message};
use crate::profile::{sample, Meaning, Profile};
use crate::refusal::Refusal::{BrokeOff, Number};
use crate::write::{bits_of, bytes_of};
use std::io;

const DRAWN_MESSAGES: usize = 30_000;

named! { Wrong, WRONGS:
    ServicesSwapped: "basic services calling before called",
    TypesSwapped: "interception type before activation type",
    External10: "10 for a destination of kind 3",
    Source27: "27 for a source of kind 3",
    Dispatcher27: "27 for a dispatcher of kind 3",
    User27: "27 for a user of kind 3",
    Kind0Is27: "27 for a destination of kind 0",
    ExternalRead: "a destination of kind 3 read as of kind 2",
    AreasSpan8: "11 for areas that span over 8",
    AreasSpan15: "11 for areas that span all 16",
    AreasEqual: "11 for areas first and last that are one",
    AreasFall: "areas that fall read",
    AreaListFalls: "11 for a list of areas that falls",
    AreasOf64: "areas first and last counted as identities of a range",
    NoOBit: "no O-bit where it isn't accepted",
    NoGroups: "no group where it isn't accepted, so 12 or 13 there",
    ReasonAccepted: "a reason with accepted",
    ReasonOf7: "a reason of 7 bits",
    StateAlways: "the state's elements whatever the result",
    None9: "9 for a group that is none",
    NoneAreas9: "9 for areas that are none",
    UsersNone: "users that are none read",
    Reserved: "a reserved range read as none in a group",
    Without12: "no 12",
    SourcesLast: "destinations before sources",
    OneGroup: "the groups behind the first that is there left out",
    Most2048: "3 over 2,048 bits",
    Without13: "no 13",
    MaskOfAddresses: "a mask bit for each address",
    GroupOf64: "no bound of 64 in the groups",
}

/// A refusal's number, and of a 4 the position.
type Refused = (u8, usize);

pub(super) fn check(report: &mut Report) -> io::Result<()> {
    let mut dice = Dice::new(29);
    let mut times = vec![0; WRONGS.len()];
    let (mut same, mut good, mut refused) = (true, 0, 0);
    for _ in 0..DRAWN_MESSAGES {
        let mut profile = draw::profile(&mut dice);
        if dice.one_in(3) {
            profile = sample();
        }
        let bits = drawn(&mut dice, &profile);
        if bits.is_empty() || !is_of_type_9(&profile, &bits) {
            continue;
        }
        let wanted = match read(&profile, &bytes_of(&bits), bits.len()) {
            Ok(Message::InterrogateAck(ack)) => Ok(ack),
            Ok(_) => continue,
            Err(BrokeOff { position, .. }) => Err((4, position)),
            Err(Number(number)) => Err((number, 0)),
        };
        match wanted {
            Ok(_) => good += 1,
            Err(_) => refused += 1,
        }
        same &= again(&profile, &bits, None) == wanted;
        for (times, (wrong, _)) in times.iter_mut().zip(WRONGS) {
            *times += usize::from(again(&profile, &bits, Some(*wrong)) != wanted);
        }
    }
    let all = format!("INTERROGATE ACK: of {} drawn ones", good + refused);
    report.check(
        &format!("{all} {good} are read and {refused} refused as another reader tells"),
        same && good > 1000 && refused > 1000,
    )?;
    for (times, (_, words)) in times.iter().zip(WRONGS) {
        let what = format!("{all}: {words}, would be found {times} times");
        report.check(&what, *times >= 10)?;
    }
    Ok(())
}

fn drawn(dice: &mut Dice, profile: &Profile) -> Vec<bool> {
    let message = match dice.below(8) {
        0..=4 => None,
        5 => longest(dice, profile),
        _ => draw::about_users(dice, profile, 9),
    };
    match message {
        Some(message) => bits_of(profile, &message),
        None => interrogation(dice, profile),
    }
}

fn is_of_type_9(profile: &Profile, bits: &[bool]) -> bool {
    let mut reader = Reader {
        profile,
        bits,
        next: 0,
        wrong: None,
    };
    reader.take(6) == Ok(profile.ss_type) && reader.take(5) == Ok(9)
}

fn again(
    profile: &Profile,
    bits: &[bool],
    wrong: Option<Wrong>,
) -> Result<InterrogateAck, Refused> {
    let most = match wrong {
        Some(Wrong::Most2048) => 2048,
        _ => 4096,
    };
    if bits.len() > most {
        return Err((3, 0));
    }
    let mut reader = Reader {
        profile,
        bits,
        next: 11,
        wrong,
    };
    let ack = reader.ack()?;
    if reader.next < bits.len() && !reader.is(Wrong::Without13) {
        return Err((13, 0));
    }
    Ok(ack)
}

/// Which group is read.
#[derive(Clone, Copy, PartialEq, Eq)]
enum Of {
    Users,
    Dispatchers,
    Sources,
    Destinations,
}

struct Reader<'a> {
    profile: &'a Profile,
    bits: &'a [bool],
    next: usize,
    wrong: Option<Wrong>,
}

impl Reader<'_> {
    fn is(&self, wrong: Wrong) -> bool {
        self.wrong == Some(wrong)
    }

    fn take(&mut self, width: usize) -> Result<u32, Refused> {
        if self.next + width > self.bits.len() {
            return Err((4, self.next));
        }
        let mut number = 0;
        for bit in &self.bits[self.next..self.next + width] {
            number = number << 1 | u32::from(*bit);
        }
        self.next += width;
        Ok(number)
    }

    fn ack(&mut self) -> Result<InterrogateAck, Refused> {
        let users = self.group(Of::Users)?;
        let mask = self.mask(&users)?;
        let accepted = self.take(1)? == 1;
        if accepted && self.is(Wrong::ReasonAccepted) {
            self.take(3)?;
        }
        let reason_bits = if self.is(Wrong::ReasonOf7) { 7 } else { 3 };
        let mut result = match accepted {
            true => self.state()?,
            false => Interrogation::NotAccepted {
                reason: self.take(reason_bits)?,
            },
        };
        if !accepted && self.is(Wrong::StateAlways) {
            result = self.state()?;
        }
        let mut groups = Groups::default();
        let no_o_bit = !accepted && self.is(Wrong::NoOBit);
        if !no_o_bit && self.take(1)? == 1 {
            if !accepted && self.is(Wrong::NoGroups) {
                return Err((12, 0));
            }
            groups = self.groups()?;
        }
        Ok(InterrogateAck {
            users,
            mask,
            result,
            groups,
        })
    }

    fn state(&mut self) -> Result<Interrogation, Refused> {
        let mut types = [self.take(1)?, self.take(1)?];
        let mut services = [self.take(2)?, self.take(2)?];
        if self.is(Wrong::TypesSwapped) {
            types.reverse();
        }
        if self.is(Wrong::ServicesSwapped) {
            services.reverse();
        }
        Ok(Interrogation::Accepted {
            activation: types[0],
            interception: types[1],
            called_service: services[0],
            calling_service: services[1],
        })
    }

    fn mask(&mut self, users: &Group) -> Result<Option<Vec<bool>>, Refused> {
        if self.take(1)? == 0 {
            return Ok(None);
        }
        let by_range = self.profile.meanings[users.range as usize] == Meaning::FirstAndLast
            && !self.is(Wrong::MaskOfAddresses);
        let width = match by_range {
            true => (users.addresses[1].ssi - users.addresses[0].ssi + 1) as usize,
            false => users.addresses.len(),
        };
        let begin = self.next;
        if begin + width > self.bits.len() {
            return Err((4, begin));
        }
        self.next += width;
        Ok(Some(self.bits[begin..self.next].to_vec()))
    }

    fn groups(&mut self) -> Result<Groups, Refused> {
        let mut groups = Groups::default();
        let mut order = [Of::Dispatchers, Of::Sources, Of::Destinations];
        if self.is(Wrong::SourcesLast) {
            order.swap(1, 2);
        }
        for of in order {
            if self.take(1)? == 0 {
                continue;
            }
            let group = Some(self.group(of)?);
            match of {
                Of::Sources => groups.sources = group,
                Of::Destinations => groups.destinations = group,
                _ => groups.dispatchers = group,
            }
            if self.is(Wrong::OneGroup) {
                return Ok(groups);
            }
        }
        if self.take(1)? == 1 {
            groups.areas = Some(self.areas()?);
        }
        if groups == Groups::default() && !self.is(Wrong::Without12) {
            return Err((12, 0));
        }
        Ok(groups)
    }

    fn group(&mut self, of: Of) -> Result<Group, Refused> {
        let range = self.take(4)?;
        let users = of == Of::Users;
        let mut addresses = Vec::new();
        match self.profile.meanings[range as usize] {
            Meaning::Reserved if users || !self.is(Wrong::Reserved) => return Err((9, 0)),
            Meaning::NoIdentity if users && !self.is(Wrong::UsersNone) => return Err((9, 0)),
            Meaning::NoIdentity if !users && self.is(Wrong::None9) => return Err((9, 0)),
            Meaning::Reserved | Meaning::NoIdentity => {}
            Meaning::List(count) => {
                for _ in 0..count {
                    addresses.push(self.address(of)?);
                }
            }
            Meaning::FirstAndLast => {
                addresses = vec![self.address(of)?, self.address(of)?];
                let (first, last) = (addresses[0], addresses[1]);
                let same = (first.kind, first.extension) == (last.kind, last.extension);
                let most = match !users && self.is(Wrong::GroupOf64) {
                    true => 1 << 24,
                    false => 64,
                };
                if !same || last.ssi < first.ssi || last.ssi - first.ssi >= most {
                    return Err((11, 0));
                }
            }
        }
        Ok(Group { range, addresses })
    }

    fn address(&mut self, of: Of) -> Result<Address, Refused> {
        let kind = self.take(2)?;
        let external = match of {
            Of::Destinations => !self.is(Wrong::External10),
            Of::Sources => self.is(Wrong::Source27),
            Of::Dispatchers => self.is(Wrong::Dispatcher27),
            Of::Users => self.is(Wrong::User27),
        };
        match kind {
            0 if of == Of::Destinations && self.is(Wrong::Kind0Is27) => return Err((27, 0)),
            0 => return Err((10, 0)),
            3 if of == Of::Destinations && self.is(Wrong::ExternalRead) => {}
            3 if external => return Err((27, 0)),
            3 => return Err((10, 0)),
            _ => {}
        }
        Ok(Address {
            kind,
            ssi: self.take(24)?,
            extension: if kind == 1 { 0 } else { self.take(24)? },
        })
    }

    fn areas(&mut self) -> Result<Areas, Refused> {
        let range = self.take(4)?;
        let meaning = self.profile.meanings[range as usize];
        let count = match meaning {
            Meaning::Reserved => return Err((9, 0)),
            Meaning::NoIdentity if self.is(Wrong::NoneAreas9) => return Err((9, 0)),
            Meaning::NoIdentity => 0,
            Meaning::List(count) => count,
            Meaning::FirstAndLast => 2,
        };
        let mut areas = Vec::new();
        for _ in 0..count {
            areas.push(self.take(4)?);
        }
        let falls = areas.windows(2).any(|two| two[0] > two[1]);
        if meaning == Meaning::FirstAndLast {
            let apart = areas[1].wrapping_sub(areas[0]);
            let refused = falls && !self.is(Wrong::AreasFall)
                || apart == 0 && self.is(Wrong::AreasEqual)
                || !falls && apart >= 8 && self.is(Wrong::AreasSpan8)
                || apart == 15 && self.is(Wrong::AreasSpan15);
            if refused {
                return Err((11, 0));
            }
            if self.is(Wrong::AreasOf64) {
                areas = (areas[0]..=areas[1]).collect();
            }
        } else if falls && self.is(Wrong::AreaListFalls) {
            return Err((11, 0));
        }
        Ok(Areas { range, areas })
    }
}
