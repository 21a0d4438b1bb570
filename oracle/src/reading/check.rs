//! The body checks (01, Body checks).

use super::header::is_known;
use super::octets::be16;
use super::{peers, rib, table_dump};

/// Whether a body passes the check of its type, subtype and stored length: 0, or the refusal 2, 5, 6 or 7.
#[inline]
pub fn body_check(kind: u16, subtype: u16, stored: u32, body: &[u8]) -> u8 {
    let met = match kind {
        5 => legacy(subtype, stored as usize),
        12 => table_dump::is_route(subtype, body),
        13 => table_dump_v2(subtype, body),
        16 | 17 => bgp4mp(subtype, body),
        _ if is_known(kind) => return 5,
        _ => return 2,
    };
    match met {
        None => 6,
        Some(false) => 7,
        Some(true) => 0,
    }
}

/// Type 5: the length alone decides. Nothing where the subtype is not carried.
#[inline]
fn legacy(subtype: u16, length: usize) -> Option<bool> {
    let (low, high) = match subtype {
        1 => (16, 65_535),
        3 => (10, 10),
        5 => (22, 4_089),
        6 => (14, 65_535),
        7 => (12, 12),
        _ => return None,
    };
    Some(low <= length && length <= high)
}

fn table_dump_v2(subtype: u16, body: &[u8]) -> Option<bool> {
    if subtype == 1 {
        return Some(peers::holds_every_peer(body));
    }
    rib::has_readable_head(subtype, body)
}

/// Types 16 and 17. Nothing where the subtype is not carried.
#[inline]
pub fn bgp4mp(subtype: u16, body: &[u8]) -> Option<bool> {
    let width = as_width(subtype)?;
    Some(after_addresses(width, body).is_some_and(|rest| {
        if is_state_change(subtype) {
            rest.len() == 4
        } else {
            is_message(rest)
        }
    }))
}

/// How many octets an AS number takes, where the subtype is carried.
#[inline]
pub fn as_width(subtype: u16) -> Option<usize> {
    match subtype {
        0 | 1 | 6 | 8 | 10 => Some(2),
        4 | 5 | 7 | 9 | 11 => Some(4),
        _ => None,
    }
}

#[inline]
pub fn is_state_change(subtype: u16) -> bool {
    subtype == 0 || subtype == 5
}

/// What stands after two AS numbers, interface, family and two addresses.
#[inline]
fn after_addresses(width: usize, body: &[u8]) -> Option<&[u8]> {
    let family = 2 * width + 2;
    if body.len() < family + 2 {
        return None;
    }
    let address = match be16(body, family) {
        1 => 4,
        2 => 16,
        _ => return None,
    };
    body.get(family + 2 + 2 * address..)
}

/// One BGP message that fills the octets (RFC 4271, 4.1). The least OPEN has 29 (4.2; 02, wish 2).
#[inline]
fn is_message(octets: &[u8]) -> bool {
    if octets.len() < 19 || octets[..16] != [255; 16] || usize::from(be16(octets, 16)) != octets.len() {
        return false;
    }
    match octets[18] {
        1 => octets.len() >= 29 && octets.len() <= 4_096,
        2 => octets.len() >= 23,
        3 => octets.len() >= 21,
        4 => octets.len() == 19,
        _ => false,
    }
}
