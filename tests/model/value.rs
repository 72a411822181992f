//! The flat value: one struct with a field for all that any of the messages carries.
//! What a message doesn't carry is zero, so a value is valid exactly if it is some message, flat.

use crate::ack::{Ack, AckResult};
use crate::interrogate_ack::{
    are_area_ends, area_count, Areas, Groups, InterrogateAck, Interrogation, FAILURE_BITS,
};
use crate::message::{are_range_ends, identity_count, meaning_of, Address, Group, Message};
use crate::profile::{Meaning, Profile};
use crate::request::{Options, AREA_BITS, MNI_BITS, SERVICE_BITS};

pub const MOST_ADDRESSES: usize = 15;

/// A range number and the addresses from place 0 on; the places beyond the count are zero.
#[derive(Clone, PartialEq, Eq, Debug, Default)]
pub struct FlatGroup {
    pub range: u32,
    pub addresses: [Address; MOST_ADDRESSES],
}

/// The same of areas.
#[derive(Clone, PartialEq, Eq, Debug, Default)]
pub struct FlatAreas {
    pub range: u32,
    pub areas: [u32; MOST_ADDRESSES],
}

#[derive(Clone, PartialEq, Eq, Debug, Default)]
pub struct Value {
    pub pdu: u32,
    /// INTERROGATE's one address is address 0 here, and REQUEST's calling and called addresses
    /// are addresses 0 and 1, with range number 0.
    pub users: FlatGroup,
    pub masked: bool,
    /// Identity i, from 0, is bit 63 - i, whatever the count.
    pub mask: u64,
    pub result: u32,
    pub reason: u32,
    pub cause: u32,
    pub identifier: u32,
    /// Whether the message's only option is there, or the first of REQUEST's or of INTERROGATE
    /// ACK's, which are its dispatchers.
    pub option: bool,
    /// The one dispatcher of INTERCEPTED, DIVERTED and REJECTED is address 0 here, with range
    /// number 0.
    pub dispatchers: FlatGroup,
    /// Whether REQUEST's other six options are there, in their order; of INTERROGATE ACK's the
    /// sources, the destinations and the areas.
    pub further: [bool; 6],
    pub mni: u32,
    /// Of the calling, of the called, as the services are.
    pub areas: [u32; 2],
    pub services: [u32; 2],
    pub activation: u32,
    pub interception: u32,
    pub sources: FlatGroup,
    pub destinations: FlatGroup,
    /// INTERROGATE ACK's.
    pub restricted: FlatAreas,
}

/// Document 01: "A value is valid exactly if ..."
pub fn valid(profile: &Profile, value: &Value) -> bool {
    valid_message(profile, value).is_some()
}

/// The message that a valid value is; nothing for any other value.
pub fn valid_message(profile: &Profile, value: &Value) -> Option<Message> {
    let message = carried(profile, value)?;
    // The flat form of what is carried is zero all around it: so must the value be.
    if flat(&message) == *value {
        Some(message)
    } else {
        None
    }
}

/// A message, one that reading accepts, as a flat value.
pub fn flat(message: &Message) -> Value {
    let mut value = Value {
        pdu: message.pdu_type(),
        ..Value::default()
    };
    match message {
        Message::Activate { users, dispatchers } => {
            value.users = flat_group(users);
            if let Some(group) = dispatchers {
                value.option = true;
                value.dispatchers = flat_group(group);
            }
        }
        Message::Deactivate { users } => value.users = flat_group(users),
        Message::ActivateAck(ack) | Message::DeactivateAck(ack) => flat_ack(ack, &mut value),
        Message::Interrogate { user } => value.users.addresses[0] = *user,
        Message::InterrogateAck(ack) => flat_interrogate_ack(ack, &mut value),
        Message::Intercepted { cause, dispatcher }
        | Message::Diverted { cause, dispatcher }
        | Message::Rejected { cause, dispatcher } => {
            value.cause = *cause;
            if let Some(address) = dispatcher {
                value.option = true;
                value.dispatchers.addresses[0] = *address;
            }
        }
        Message::Accept { identifier }
        | Message::Divert { identifier }
        | Message::Cancel { identifier } => value.identifier = *identifier,
        Message::Reject { identifier, cause } => {
            value.identifier = *identifier;
            value.cause = *cause;
        }
        Message::Request {
            identifier,
            cause,
            options,
        } => {
            value.identifier = *identifier;
            value.cause = *cause;
            flat_options(options, &mut value);
        }
        Message::Accepted => {}
    }
    value
}

fn flat_ack(ack: &Ack, value: &mut Value) {
    value.users = flat_group(&ack.users);
    if let Some(mask) = &ack.mask {
        value.masked = true;
        value.mask = flat_mask(mask);
    }
    match ack.result {
        AckResult::Accepted => value.result = 1,
        AckResult::NotAccepted { reason } => value.reason = reason,
    }
}

fn flat_interrogate_ack(ack: &InterrogateAck, value: &mut Value) {
    value.users = flat_group(&ack.users);
    if let Some(mask) = &ack.mask {
        value.masked = true;
        value.mask = flat_mask(mask);
    }
    match ack.result {
        Interrogation::Accepted {
            activation,
            interception,
            called_service,
            calling_service,
        } => {
            value.result = 1;
            value.activation = activation;
            value.interception = interception;
            value.services = [calling_service, called_service];
        }
        Interrogation::NotAccepted { reason } => value.reason = reason,
    }
    let Groups {
        dispatchers,
        sources,
        destinations,
        areas,
    } = &ack.groups;
    value.option = dispatchers.is_some();
    value.further[0] = sources.is_some();
    value.further[1] = destinations.is_some();
    value.further[2] = areas.is_some();
    value.dispatchers = dispatchers.as_ref().map(flat_group).unwrap_or_default();
    value.sources = sources.as_ref().map(flat_group).unwrap_or_default();
    value.destinations = destinations.as_ref().map(flat_group).unwrap_or_default();
    value.restricted = areas.as_ref().map(flat_areas).unwrap_or_default();
}

fn flat_options(options: &Options, value: &mut Value) {
    value.option = options.calling.is_some();
    value.further = [
        options.called.is_some(),
        options.mni.is_some(),
        options.calling_area.is_some(),
        options.called_area.is_some(),
        options.calling_service.is_some(),
        options.called_service.is_some(),
    ];
    value.users.addresses[0] = options.calling.unwrap_or_default();
    value.users.addresses[1] = options.called.unwrap_or_default();
    value.mni = options.mni.unwrap_or_default();
    value.areas = [options.calling_area, options.called_area].map(Option::unwrap_or_default);
    value.services =
        [options.calling_service, options.called_service].map(Option::unwrap_or_default);
}

fn flat_group(group: &Group) -> FlatGroup {
    let mut flat = FlatGroup {
        range: group.range,
        ..FlatGroup::default()
    };
    for (place, address) in group.addresses.iter().enumerate() {
        flat.addresses[place] = *address;
    }
    flat
}

fn flat_areas(areas: &Areas) -> FlatAreas {
    let mut flat = FlatAreas {
        range: areas.range,
        ..FlatAreas::default()
    };
    for (place, area) in areas.areas.iter().enumerate() {
        flat.areas[place] = *area;
    }
    flat
}

fn flat_mask(mask: &[bool]) -> u64 {
    let mut flat = 0;
    for (identity, bit) in mask.iter().enumerate() {
        flat |= u64::from(*bit) << (63 - identity);
    }
    flat
}

/// The message that the value's PDU type makes of it, whatever the fields beside it hold;
/// nothing if the type isn't carried, a number is too wide, or reading would give 9, 10 or 11.
fn carried(profile: &Profile, value: &Value) -> Option<Message> {
    match value.pdu {
        2 => Some(Message::Activate {
            users: carried_users(profile, &value.users)?,
            dispatchers: if value.option {
                Some(carried_group(profile, &value.dispatchers)?)
            } else {
                None
            },
        }),
        3 => Some(Message::ActivateAck(carried_ack(profile, value)?)),
        4 => Some(Message::Deactivate {
            users: carried_users(profile, &value.users)?,
        }),
        5 => Some(Message::DeactivateAck(carried_ack(profile, value)?)),
        8 => Some(Message::Interrogate {
            user: carried_address(&value.users.addresses[0])?,
        }),
        9 => Some(Message::InterrogateAck(carried_interrogate_ack(
            profile, value,
        )?)),
        10 => Some(Message::Intercepted {
            cause: fitting(value.cause, 5)?,
            dispatcher: carried_dispatcher(value)?,
        }),
        11 => Some(Message::Request {
            identifier: fitting(value.identifier, 14)?,
            cause: fitting(value.cause, 5)?,
            options: carried_options(value)?,
        }),
        12 => Some(Message::Accept {
            identifier: fitting(value.identifier, 14)?,
        }),
        13 => Some(Message::Accepted),
        14 => Some(Message::Cancel {
            identifier: fitting(value.identifier, 14)?,
        }),
        15 => Some(Message::Divert {
            identifier: fitting(value.identifier, 14)?,
        }),
        16 => Some(Message::Diverted {
            cause: fitting(value.cause, 5)?,
            dispatcher: carried_dispatcher(value)?,
        }),
        17 => Some(Message::Reject {
            identifier: fitting(value.identifier, 14)?,
            cause: fitting(value.cause, 5)?,
        }),
        18 => Some(Message::Rejected {
            cause: fitting(value.cause, 5)?,
            dispatcher: carried_dispatcher(value)?,
        }),
        _ => None,
    }
}

fn carried_ack(profile: &Profile, value: &Value) -> Option<Ack> {
    let users = carried_users(profile, &value.users)?;
    let mask = carried_mask(profile, value, &users);
    let result = if fitting(value.result, 1)? == 1 {
        AckResult::Accepted
    } else {
        AckResult::NotAccepted {
            reason: fitting(value.reason, 7)?,
        }
    };
    Some(Ack {
        users,
        mask,
        result,
    })
}

fn carried_mask(profile: &Profile, value: &Value, users: &Group) -> Option<Vec<bool>> {
    if !value.masked {
        return None;
    }
    let mut bits = Vec::new();
    for identity in 0..identity_count(profile, users) {
        bits.push((value.mask >> (63 - identity)) & 1 == 1);
    }
    Some(bits)
}

fn carried_interrogate_ack(profile: &Profile, value: &Value) -> Option<InterrogateAck> {
    let users = carried_users(profile, &value.users)?;
    let mask = carried_mask(profile, value, &users);
    let [calling_service, called_service] = value.services;
    let result = if fitting(value.result, 1)? == 1 {
        Interrogation::Accepted {
            activation: fitting(value.activation, 1)?,
            interception: fitting(value.interception, 1)?,
            called_service: fitting(called_service, SERVICE_BITS)?,
            calling_service: fitting(calling_service, SERVICE_BITS)?,
        }
    } else {
        Interrogation::NotAccepted {
            reason: fitting(value.reason, FAILURE_BITS)?,
        }
    };
    let [of_sources, of_destinations, of_areas, ..] = value.further;
    let group = |there, group| carried_if(there, || carried_group(profile, group));
    let groups = Groups {
        dispatchers: group(value.option, &value.dispatchers)?,
        sources: group(of_sources, &value.sources)?,
        destinations: group(of_destinations, &value.destinations)?,
        areas: carried_if(of_areas, || carried_areas(profile, &value.restricted))?,
    };
    Some(InterrogateAck {
        users,
        mask,
        result,
        groups,
    })
}

fn carried_areas(profile: &Profile, flat: &FlatAreas) -> Option<Areas> {
    let range = fitting(flat.range, 4)?;
    let meaning = meaning_of(profile, range);
    let mut areas = Vec::new();
    for area in &flat.areas[..area_count(meaning)?] {
        areas.push(fitting(*area, AREA_BITS)?);
    }
    if meaning == Meaning::FirstAndLast && !are_area_ends(&areas) {
        return None;
    }
    Some(Areas { range, areas })
}

/// The dispatcher of INTERCEPTED, DIVERTED and REJECTED, if the option is there; nothing at all
/// if it is there and reading would refuse it.
fn carried_dispatcher(value: &Value) -> Option<Option<Address>> {
    carried_if(value.option, || {
        carried_address(&value.dispatchers.addresses[0])
    })
}

fn carried_options(value: &Value) -> Option<Options> {
    let [calling, called, ..] = &value.users.addresses;
    let [of_called, of_mni, of_calling_area, of_called_area, of_calling_service, of_called_service] =
        value.further;
    Some(Options {
        calling: carried_if(value.option, || carried_address(calling))?,
        called: carried_if(of_called, || carried_address(called))?,
        mni: carried_if(of_mni, || fitting(value.mni, MNI_BITS))?,
        calling_area: carried_if(of_calling_area, || fitting(value.areas[0], AREA_BITS))?,
        called_area: carried_if(of_called_area, || fitting(value.areas[1], AREA_BITS))?,
        calling_service: carried_if(of_calling_service, || {
            fitting(value.services[0], SERVICE_BITS)
        })?,
        called_service: carried_if(of_called_service, || {
            fitting(value.services[1], SERVICE_BITS)
        })?,
    })
}

/// An option, if it is there; nothing at all if it is there and isn't good.
fn carried_if<T>(there: bool, carried: impl Fn() -> Option<T>) -> Option<Option<T>> {
    if there {
        Some(Some(carried()?))
    } else {
        Some(None)
    }
}

fn carried_users(profile: &Profile, group: &FlatGroup) -> Option<Group> {
    let range = fitting(group.range, 4)?;
    if meaning_of(profile, range) == Meaning::NoIdentity {
        return None;
    }
    carried_group(profile, group)
}

fn carried_group(profile: &Profile, group: &FlatGroup) -> Option<Group> {
    let range = fitting(group.range, 4)?;
    let meaning = meaning_of(profile, range);
    let count = match meaning {
        Meaning::Reserved => return None,
        Meaning::NoIdentity => 0,
        Meaning::List(count) => usize::from(count),
        Meaning::FirstAndLast => 2,
    };
    let mut addresses = Vec::new();
    for address in &group.addresses[..count] {
        addresses.push(carried_address(address)?);
    }
    if meaning == Meaning::FirstAndLast && !are_range_ends(&addresses[0], &addresses[1]) {
        return None;
    }
    Some(Group { range, addresses })
}

fn carried_address(address: &Address) -> Option<Address> {
    let ssi = fitting(address.ssi, 24)?;
    match address.kind {
        1 => Some(Address {
            kind: 1,
            ssi,
            extension: 0,
        }),
        2 => Some(Address {
            kind: 2,
            ssi,
            extension: fitting(address.extension, 24)?,
        }),
        _ => None,
    }
}

/// The number itself, if it fits the width.
fn fitting(number: u32, width: usize) -> Option<u32> {
    if number < 1 << width {
        Some(number)
    } else {
        None
    }
}
