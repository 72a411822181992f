//! REQUEST's seven options, read and written: one O-bit, and after an O-bit of 1 a P-bit before
//! each, in the order of the standard's table 31. Basic service stands calling, called there.

use crate::bits::Bits;
use crate::element::Element;
use crate::message::{read_address, Address};
use crate::refusal::Refusal::{self, Number};
use crate::write::{put, put_address};

pub const MNI_BITS: usize = 24;
pub const AREA_BITS: usize = 4;
pub const SERVICE_BITS: usize = 2;

#[derive(Clone, PartialEq, Eq, Debug, Default)]
pub struct Options {
    pub calling: Option<Address>,
    pub called: Option<Address>,
    pub mni: Option<u32>,
    pub calling_area: Option<u32>,
    pub called_area: Option<u32>,
    pub calling_service: Option<u32>,
    pub called_service: Option<u32>,
}

/// 12 after the last P-bit, if there was no option behind any of them.
pub fn read_options(bits: &mut Bits) -> Result<Options, Refusal> {
    if bits.take(Element::OBit, 1)? == 0 {
        return Ok(Options::default());
    }
    let area = |bits: &mut Bits| bits.take(Element::Area, AREA_BITS);
    let service = |bits: &mut Bits| bits.take(Element::BasicService, SERVICE_BITS);
    let options = Options {
        calling: read_behind_p_bit(bits, read_address)?,
        called: read_behind_p_bit(bits, read_address)?,
        mni: read_behind_p_bit(bits, |bits| bits.take(Element::Mni, MNI_BITS))?,
        calling_area: read_behind_p_bit(bits, area)?,
        called_area: read_behind_p_bit(bits, area)?,
        calling_service: read_behind_p_bit(bits, service)?,
        called_service: read_behind_p_bit(bits, service)?,
    };
    if options == Options::default() {
        return Err(Number(12));
    }
    Ok(options)
}

pub fn read_behind_p_bit<T>(
    bits: &mut Bits,
    read: impl Fn(&mut Bits) -> Result<T, Refusal>,
) -> Result<Option<T>, Refusal> {
    if bits.take(Element::PBit, 1)? == 0 {
        return Ok(None);
    }
    Ok(Some(read(bits)?))
}

pub fn put_options(bits: &mut Vec<bool>, options: &Options) {
    if *options == Options::default() {
        put(bits, 0, 1);
        return;
    }
    put(bits, 1, 1);
    for address in [&options.calling, &options.called] {
        put(bits, u32::from(address.is_some()), 1);
        if let Some(address) = address {
            put_address(bits, address);
        }
    }
    for (number, width) in [
        (options.mni, MNI_BITS),
        (options.calling_area, AREA_BITS),
        (options.called_area, AREA_BITS),
        (options.calling_service, SERVICE_BITS),
        (options.called_service, SERVICE_BITS),
    ] {
        put(bits, u32::from(number.is_some()), 1);
        if let Some(number) = number {
            put(bits, number, width);
        }
    }
}
