//! One record: its header, its frame and its body check.

use super::{be16, be32, dump, peers, rib};
use mrt_oracle::answers::Header;

/// Bit k is set where type k is known: 0 to 13, 16, 17, 32, 33, 48, 49.
const KNOWN: u64 = 0x0003_0003_0003_3fff;
/// Bit k is set where the header of type k has microseconds: 17, 33, 49.
const TIMED: u64 = 0x0002_0002_0002_0000;
/// The octets of an AS number by subtype of types 16 and 17, 0 where the subtype is not carried.
const AS_SIZES: [u8; 12] = [2, 2, 0, 0, 4, 4, 2, 4, 2, 4, 2, 4];

const LEGACY: u16 = 5;
const TABLE_DUMP: u16 = 12;
const TABLE_DUMP_V2: u16 = 13;
pub const BGP4MP: u16 = 16;
pub const BGP4MP_ET: u16 = 17;

/// A record that passes all checks.
#[derive(Clone, Copy)]
pub struct Record {
    pub header: Header,
    pub body: usize,
    pub end: usize,
}

pub enum Verdict {
    Fit(Record),
    /// Framed and refused, with its own end.
    Off {
        refusal: u8,
        end: usize,
    },
    /// Not framed.
    Cut(u8),
}

/// The record at an offset that is not beyond the stream.
#[inline(always)]
pub fn judge(stream: &[u8], at: usize) -> Verdict {
    let rest = &stream[at..];
    let header = match header(rest) {
        Ok(header) => header,
        Err(refusal) => return Verdict::Cut(refusal),
    };
    let size = if is_timed(header.kind) { 16 } else { 12 };
    let stored = header.stored as usize;
    let Some(body) = rest.get(size..size + stored) else {
        return Verdict::Cut(4);
    };
    let end = at + size + stored;
    match check(header.kind, header.subtype, body) {
        0 => Verdict::Fit(Record { header, body: at + size, end }),
        refusal => Verdict::Off { refusal, end },
    }
}

/// Whether the header of a known type has microseconds.
#[inline(always)]
fn is_timed(kind: u16) -> bool {
    TIMED >> kind & 1 != 0
}

/// The header at the front of what is left.
#[inline(always)]
pub fn header(rest: &[u8]) -> Result<Header, u8> {
    let Some(front) = rest.first_chunk::<12>() else {
        return Err(1);
    };
    let kind = be16(front, 4);
    let wire = be32(front, 8);
    if kind >= 64 || KNOWN >> kind & 1 == 0 {
        return Err(2);
    }
    let (mut stored, mut micros) = (wire, 0);
    if is_timed(kind) {
        stored = wire.checked_sub(4).ok_or(3)?;
        let Some(front) = rest.first_chunk::<16>() else {
            return Err(1);
        };
        micros = be32(front, 12);
    }
    Ok(Header { timestamp: be32(front, 0), kind, subtype: be16(front, 6), wire, stored, micros })
}

/// 0, or 5, 6 or 7.
#[inline(always)]
fn check(kind: u16, subtype: u16, body: &[u8]) -> u8 {
    match kind {
        BGP4MP | BGP4MP_ET => bgp4mp(subtype, body),
        TABLE_DUMP_V2 if subtype == 1 => met(peers::head(body).is_some()),
        TABLE_DUMP_V2 => match rib::layout(subtype) {
            Some(layout) => met(rib::head(layout, body).is_some()),
            None => 6,
        },
        TABLE_DUMP => match dump::address_size(subtype) {
            Some(size) => met(dump::is_met(size, body)),
            None => 6,
        },
        LEGACY => match legacy_bounds(subtype) {
            Some((low, high)) => met(low <= body.len() && body.len() <= high),
            None => 6,
        },
        _ => 5,
    }
}

#[inline(always)]
fn met(condition: bool) -> u8 {
    if condition {
        0
    } else {
        7
    }
}

/// The least and the most octets of a type 5 body.
#[inline(always)]
fn legacy_bounds(subtype: u16) -> Option<(usize, usize)> {
    match subtype {
        1 => Some((16, 65_535)),
        3 => Some((10, 10)),
        5 => Some((22, 4_089)),
        6 => Some((14, 65_535)),
        7 => Some((12, 12)),
        _ => None,
    }
}

/// The octets of an AS number, 0 where the subtype is not carried.
#[inline(always)]
pub fn as_size(subtype: u16) -> usize {
    AS_SIZES.get(usize::from(subtype)).map_or(0, |&size| usize::from(size))
}

#[inline(always)]
pub fn is_state_change(subtype: u16) -> bool {
    subtype == 0 || subtype == 5
}

/// 0, or 6 or 7, of a body of type 16 or 17.
#[inline(always)]
pub fn bgp4mp(subtype: u16, body: &[u8]) -> u8 {
    let width = as_size(subtype);
    if width == 0 {
        return 6;
    }
    let family = 2 * width + 2;
    if body.len() < family + 2 {
        return 7;
    }
    let addresses = match be16(body, family) {
        1 => 8,
        2 => 32,
        _ => return 7,
    };
    let Some(tail) = body.get(family + 2 + addresses..) else {
        return 7;
    };
    if is_state_change(subtype) {
        return met(tail.len() == 4);
    }
    met(is_message(tail))
}

/// One BGP message that fills the octets.
#[inline(always)]
fn is_message(octets: &[u8]) -> bool {
    let Some(front) = octets.first_chunk::<19>() else {
        return false;
    };
    let length = usize::from(be16(front, 16));
    if front[..16] != [255; 16] || length != octets.len() {
        return false;
    }
    match front[18] {
        1 => (29..=4_096).contains(&length),
        2 => length >= 23,
        3 => length >= 21,
        4 => length == 19,
        _ => false,
    }
}
