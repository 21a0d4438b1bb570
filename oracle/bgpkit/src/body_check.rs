//! 01's body check, with the least OPEN of 02, in place of the crate's full parse. It takes the fields off the front one
//! after another with the crate's own readers, so that it shares no line with the reading it is compared with.

use crate::error::ParserError;
use crate::models::{Afi, AsnLength, Bgp4MpType, TableDumpV2Type};
use crate::parser::mrt::messages::table_dump_v2::peer_index_table::parse_peer_index_table;
use crate::parser::mrt::messages::table_dump_v2::rib_afi_entries::parse_rib_afi_entries;
use crate::parser::utils::ReadUtils;
use crate::stand_ins::bytes::{Buf, Bytes};

pub const NOT_CARRIED: &str = "subtype not carried";
pub const NOT_MET: &str = "body check not met";

fn not_carried() -> ParserError {
    ParserError::ParseError(NOT_CARRIED.to_string())
}

/// All of the crate's own errors come down to this one: a body that is not met is no failure of the input.
fn not_met() -> ParserError {
    ParserError::ParseError(NOT_MET.to_string())
}

fn met(condition: bool) -> Result<(), ParserError> {
    condition.then_some(()).ok_or_else(not_met)
}

pub fn legacy(subtype: u16, body: &Bytes) -> Result<(), ParserError> {
    let bounds = match subtype {
        1 => 16..=65_535,
        3 => 10..=10,
        5 => 22..=4_089,
        6 => 14..=65_535,
        7 => 12..=12,
        _ => return Err(not_carried()),
    };
    met(bounds.contains(&body.len()))
}

pub fn table_dump(subtype: u16, body: Bytes) -> Result<(), ParserError> {
    let family = match subtype {
        1 => Afi::Ipv4,
        2 => Afi::Ipv6,
        _ => return Err(not_carried()),
    };
    met(one_route(family, body).is_some_and(|filled| filled))
}

/// Whether a type 12 body has a prefix and is filled by its attributes; nothing where it ends before those.
fn one_route(family: Afi, mut body: Bytes) -> Option<bool> {
    let (_view, _sequence) = (body.read_u16().ok()?, body.read_u16().ok()?);
    let has_prefix = match family {
        Afi::Ipv4 => body.read_ipv4_prefix().is_ok(),
        _ => body.read_ipv6_prefix().is_ok(),
    };
    let (_status, _originated) = (body.read_u8().ok()?, body.read_u32().ok()?);
    body.read_address(&family).ok()?;
    body.read_asn(AsnLength::Bits16).ok()?;
    let attributes = body.read_u16().ok()?;
    Some(has_prefix && body.remaining() == usize::from(attributes))
}

pub fn table_dump_v2(subtype: u16, mut body: Bytes) -> Result<(), ParserError> {
    let kind = TableDumpV2Type::try_from(subtype).map_err(|_| not_carried())?;
    match kind {
        TableDumpV2Type::PeerIndexTable => met(parse_peer_index_table(&mut body).is_ok()),
        TableDumpV2Type::RibGeneric | TableDumpV2Type::RibGenericAddPath | TableDumpV2Type::GeoPeerTable => {
            Err(not_carried())
        }
        _ => met(parse_rib_afi_entries(&mut body, kind).is_ok()),
    }
}

pub fn bgp4mp(subtype: u16, body: Bytes) -> Result<(), ParserError> {
    let kind = Bgp4MpType::try_from(subtype).map_err(|_| not_carried())?;
    met(envelope(kind, body).is_some_and(|filled| filled))
}

/// Whether what stands after the addresses fills the body; nothing where the body ends before that.
fn envelope(kind: Bgp4MpType, mut body: Bytes) -> Option<bool> {
    let width = as_width(kind);
    body.read_asn(width).ok()?;
    body.read_asn(width).ok()?;
    body.read_u16().ok()?;
    let family = match body.read_u16().ok()? {
        1 => Afi::Ipv4,
        2 => Afi::Ipv6,
        _ => return None,
    };
    body.read_address(&family).ok()?;
    body.read_address(&family).ok()?;
    match kind {
        Bgp4MpType::StateChange | Bgp4MpType::StateChangeAs4 => two_states(body),
        _ => one_message(body),
    }
}

fn as_width(kind: Bgp4MpType) -> AsnLength {
    match kind {
        Bgp4MpType::StateChange
        | Bgp4MpType::Message
        | Bgp4MpType::MessageLocal
        | Bgp4MpType::MessageAddpath
        | Bgp4MpType::MessageLocalAddpath => AsnLength::Bits16,
        _ => AsnLength::Bits32,
    }
}

fn two_states(mut body: Bytes) -> Option<bool> {
    body.read_u16().ok()?;
    body.read_u16().ok()?;
    Some(body.remaining() == 0)
}

fn one_message(mut body: Bytes) -> Option<bool> {
    let all = body.remaining();
    let marker = body.read_n_bytes(16).ok()?;
    let length = body.read_u16().ok()?;
    let kind = body.read_u8().ok()?;
    let fits = match kind {
        1 => (29..=4_096).contains(&length),
        2 => length >= 23,
        3 => length >= 21,
        4 => length == 19,
        _ => false,
    };
    Some(fits && usize::from(length) == all && marker.iter().all(|&octet| octet == 255))
}
