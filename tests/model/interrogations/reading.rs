//! What came of one message of type 9 in reading, told from its value or from its bits.

use super::events::Read;
use crate::element::Element;
use crate::interrogate_ack::{Areas, InterrogateAck, Interrogation};
use crate::message::{meaning_of, read, Group, Message};
use crate::profile::{Meaning, Profile};
use crate::refusal::Refusal::{self, Number};
use crate::trail::{trail, Part, Span};

/// Absent, none, a list, first and last.
type OfGroup = [Read; 4];

const DISPATCHERS: OfGroup = [
    Read::NoDispatchers,
    Read::DispatchersNone,
    Read::DispatchersList,
    Read::DispatchersRange,
];
const SOURCES: OfGroup = [
    Read::NoSources,
    Read::SourcesNone,
    Read::SourcesList,
    Read::SourcesRange,
];
const DESTINATIONS: OfGroup = [
    Read::NoDestinations,
    Read::DestinationsNone,
    Read::DestinationsList,
    Read::DestinationsRange,
];

/// All that is to be counted; nothing for a message of another type.
pub fn reads(profile: &Profile, bytes: &[u8], length: usize) -> Vec<Read> {
    match read(profile, bytes, length) {
        Ok(Message::InterrogateAck(ack)) => of_ack(profile, &ack),
        Err(refusal) => of_refusal(profile, bytes, length, refusal),
        Ok(_) => Vec::new(),
    }
}

fn of_ack(profile: &Profile, ack: &InterrogateAck) -> Vec<Read> {
    let mut came = match ack.result {
        Interrogation::Accepted {
            activation,
            interception,
            called_service,
            calling_service,
        } => {
            let mut came = vec![Read::Accepted];
            came.push(match activation {
                1 => Read::Active,
                _ => Read::NotActive,
            });
            came.extend((interception == 1).then_some(Read::Interception1));
            came.extend((called_service != calling_service).then_some(Read::ServicesDiffer));
            came
        }
        Interrogation::NotAccepted { .. } => vec![Read::NotAccepted],
    };
    let of_range = meaning_of(profile, ack.users.range) == Meaning::FirstAndLast;
    came.push(match (&ack.mask, of_range) {
        (None, _) => Read::WithoutMask,
        (Some(_), true) => Read::MaskOfRange,
        (Some(_), false) => Read::MaskOfList,
    });
    let groups = &ack.groups;
    for (group, reads) in [
        (&groups.dispatchers, DISPATCHERS),
        (&groups.sources, SOURCES),
        (&groups.destinations, DESTINATIONS),
    ] {
        came.push(reads[of_group(profile, group.as_ref())]);
    }
    came.extend(of_areas(profile, groups.areas.as_ref()));
    let there = [&groups.dispatchers, &groups.sources, &groups.destinations]
        .into_iter()
        .flatten()
        .count()
        + usize::from(groups.areas.is_some());
    let not_accepted = came.contains(&Read::NotAccepted);
    came.extend((there == 4).then_some(Read::AllGroups));
    came.extend((there == 1).then_some(Read::OneGroup));
    came.extend((there > 0 && not_accepted).then_some(Read::GroupsNotAccepted));
    let none = [
        Read::DispatchersNone,
        Read::SourcesNone,
        Read::DestinationsNone,
        Read::AreasNone,
    ];
    let all_none = none.iter().all(|read| came.contains(read));
    came.extend(all_none.then_some(Read::AllNone));
    came
}

fn of_group(profile: &Profile, group: Option<&Group>) -> usize {
    match group.map(|group| meaning_of(profile, group.range)) {
        None => 0,
        Some(Meaning::List(_)) => 2,
        Some(Meaning::FirstAndLast) => 3,
        Some(_) => 1,
    }
}

fn of_areas(profile: &Profile, areas: Option<&Areas>) -> Vec<Read> {
    let Areas { range, areas } = match areas {
        Some(areas) => areas,
        None => return vec![Read::NoAreas],
    };
    match (meaning_of(profile, *range), &areas[..]) {
        (Meaning::FirstAndLast, [0, 15]) => vec![Read::AreasRange, Read::AreasAll],
        (Meaning::FirstAndLast, [first, last]) if first == last => vec![Read::AreasEqual],
        (Meaning::FirstAndLast, _) => vec![Read::AreasRange],
        (Meaning::List(_), areas) if areas.windows(2).any(|two| two[0] > two[1]) => {
            vec![Read::AreasList, Read::AreasFallingList]
        }
        (Meaning::List(_), _) => vec![Read::AreasList],
        _ => vec![Read::AreasNone],
    }
}

/// The last element along the bits is the one whose content was refused.
fn of_refusal(profile: &Profile, bytes: &[u8], length: usize, refusal: Refusal) -> Vec<Read> {
    if refusal == Number(3) {
        return Vec::new();
    }
    let spans = trail(profile, bytes, length);
    let number = |span: &Span| number_at(bytes, span);
    let is_type_9 = spans.len() >= 2
        && spans[1].element == Element::PduType
        && !spans[1].reaches_past(length)
        && number(&spans[1]) == 9;
    let last = match spans.last() {
        Some(last) if is_type_9 => last,
        _ => return Vec::new(),
    };
    let accepted = spans.iter().any(|span| span.part == Part::Accepted);
    match refusal {
        Number(5) => vec![Read::Other5],
        Number(9) => vec![range_refused(last.part, profile, number(last))],
        Number(10) => vec![kind_refused(last.part, number(last))],
        Number(27) => {
            let mut came = vec![external(last.part)];
            came.extend((last.begin + last.width == length).then_some(Read::End27));
            came.extend((!accepted).then_some(Read::NotAccepted27));
            came
        }
        Number(11) => ends_refused(&spans, bytes),
        Number(12) if accepted => vec![Read::Accepted12],
        Number(12) => vec![Read::NotAccepted12],
        Number(13) => {
            let mut came = vec![match accepted {
                true => Read::Accepted13,
                false => Read::NotAccepted13,
            }];
            let groups = spans.iter().any(|span| span.element == Element::PBit);
            came.extend(groups.then_some(Read::Groups13));
            came
        }
        _ => Vec::new(),
    }
}

fn number_at(bytes: &[u8], span: &Span) -> u32 {
    let mut number = 0;
    for place in span.begin..span.begin + span.width {
        number = number << 1 | u32::from(bytes[place / 8] >> (7 - place % 8) & 1);
    }
    number
}

fn range_refused(part: Part, profile: &Profile, range: u32) -> Read {
    match (part, meaning_of(profile, range)) {
        (Part::Users, Meaning::NoIdentity) => Read::Users9None,
        (Part::Users, _) => Read::Users9Reserved,
        (Part::Dispatchers, _) => Read::Dispatchers9,
        (Part::Sources, _) => Read::Sources9,
        (Part::Destinations, _) => Read::Destinations9,
        _ => Read::Areas9,
    }
}

fn kind_refused(part: Part, kind: u32) -> Read {
    match (group_of(part), kind) {
        (Part::Users, 0) => Read::Users10Kind0,
        (Part::Users, _) => Read::Users10Kind3,
        (Part::Dispatchers, 0) => Read::Dispatchers10Kind0,
        (Part::Dispatchers, _) => Read::Dispatchers10Kind3,
        (Part::Sources, 0) => Read::Sources10Kind0,
        (Part::Sources, _) => Read::Sources10Kind3,
        _ => Read::Destinations10,
    }
}

fn external(part: Part) -> Read {
    match part {
        Part::FirstDestination => Read::First27,
        Part::LaterDestination => Read::Later27,
        Part::FromDestination => Read::From27,
        _ => Read::To27,
    }
}

/// The group whose address this is.
fn group_of(part: Part) -> Part {
    match part {
        Part::FirstUser | Part::LaterUser | Part::FromUser | Part::ToUser => Part::Users,
        Part::FirstDispatcher
        | Part::LaterDispatcher
        | Part::FromDispatcher
        | Part::ToDispatcher => Part::Dispatchers,
        Part::FirstSource | Part::LaterSource | Part::FromSource | Part::ToSource => Part::Sources,
        _ => Part::Destinations,
    }
}

fn ends_refused(spans: &[Span], bytes: &[u8]) -> Vec<Read> {
    let to = spans[spans.len() - 1].part;
    let (from, grounds) = match to {
        Part::ToUser => (
            Part::FromUser,
            [Read::Users11Differ, Read::Users11Falls, Read::Users11Spans],
        ),
        Part::ToDispatcher => (
            Part::FromDispatcher,
            [
                Read::Dispatchers11Differ,
                Read::Dispatchers11Falls,
                Read::Dispatchers11Spans,
            ],
        ),
        Part::ToSource => (
            Part::FromSource,
            [
                Read::Sources11Differ,
                Read::Sources11Falls,
                Read::Sources11Spans,
            ],
        ),
        Part::ToDestination => (
            Part::FromDestination,
            [
                Read::Destinations11Differ,
                Read::Destinations11Falls,
                Read::Destinations11Spans,
            ],
        ),
        _ => return areas_refused(spans, bytes),
    };
    let address = |part: Part, element: Element| {
        let mut of_address = spans.iter().filter(|span| span.part == part);
        let span = of_address.find(|span| span.element == element);
        span.map(|span| number_at(bytes, span))
    };
    let same = |element| address(from, element) == address(to, element);
    let [differ, falls, over] = grounds;
    if !same(Element::Kind) || !same(Element::Extension) {
        vec![differ]
    } else if address(from, Element::Ssi) > address(to, Element::Ssi) {
        vec![falls]
    } else {
        vec![over]
    }
}

fn areas_refused(spans: &[Span], bytes: &[u8]) -> Vec<Read> {
    let [first, last] = [spans.len() - 2, spans.len() - 1].map(|at| number_at(bytes, &spans[at]));
    match first == last + 1 {
        true => vec![Read::Areas11, Read::Areas11ByOne],
        false => vec![Read::Areas11],
    }
}
