//! TABLE_DUMP bodies of subtypes 1 and 2, one route each (RFC 6396, 4.2). Both families have one layout over x, the octets
//! of an address.

use super::octets::{be16, be32, Pen};
use crate::answers::{Answer, DumpedRoute, NewDump, TableDump};

/// x, where the subtype is carried.
fn address_size(subtype: u16) -> Option<usize> {
    match subtype {
        1 => Some(4),
        2 => Some(16),
        _ => None,
    }
}

/// Where the attributes start, straight after their length.
fn attributes_at(x: usize) -> usize {
    14 + 2 * x
}

fn fits(x: usize, bits: u8) -> bool {
    usize::from(bits) <= 8 * x
}

/// The attributes fill the body as their length says, and the prefix has no more bits than an address.
fn is_whole(x: usize, body: &[u8]) -> bool {
    let start = attributes_at(x);
    body.len() >= start && body.len() - start == usize::from(be16(body, start - 2)) && fits(x, body[4 + x])
}

/// Whether a body passes the check of its subtype. Nothing where the subtype is not carried.
pub fn is_route(subtype: u16, body: &[u8]) -> Option<bool> {
    address_size(subtype).map(|x| is_whole(x, body))
}

/// Every field of a body: 6, then 7.
pub fn read_table_dump(subtype: u16, body: &[u8]) -> Answer<TableDump> {
    let read = address_size(subtype).ok_or(6).and_then(|x| {
        if !is_whole(x, body) {
            return Err(7);
        }
        Ok(TableDump { route: route(x, body), attributes_at: attributes_at(x), attributes_end: body.len() })
    });
    read.into()
}

/// What stands before the attributes. The caller knows that it is held.
fn route(x: usize, body: &[u8]) -> DumpedRoute {
    DumpedRoute {
        view: be16(body, 0),
        sequence: be16(body, 2),
        prefix: address(&body[4..4 + x]),
        bits: body[4 + x],
        status: body[5 + x],
        originated: be32(body, 6 + x),
        peer: address(&body[10 + x..10 + 2 * x]),
        asn: u32::from(be16(body, 10 + 2 * x)),
    }
}

/// An address as it stands, with zeros after four octets.
fn address(octets: &[u8]) -> [u8; 16] {
    let mut all = [0; 16];
    all[..octets.len()].copy_from_slice(octets);
    all
}

/// Writes a body at the front of the output: 6, then 10, then 9.
pub fn write_table_dump(out: &mut [u8], dump: &NewDump) -> Answer<usize> {
    address_size(dump.subtype).ok_or(6).and_then(|x| put_route(out, x, &dump.route, dump.attributes)).into()
}

fn put_route(out: &mut [u8], x: usize, route: &DumpedRoute, attributes: &[u8]) -> Result<usize, u8> {
    let asn = u16::try_from(route.asn).map_err(|_| 10)?;
    let attributes_len = u16::try_from(attributes.len()).map_err(|_| 10)?;
    if !fits(x, route.bits) {
        return Err(10);
    }
    if out.len() < attributes_at(x) + attributes.len() {
        return Err(9);
    }
    let mut pen = Pen::new(out);
    pen.put(&route.view.to_be_bytes());
    pen.put(&route.sequence.to_be_bytes());
    pen.put(&route.prefix[..x]);
    pen.put(&[route.bits, route.status]);
    pen.put(&route.originated.to_be_bytes());
    pen.put(&route.peer[..x]);
    pen.put(&asn.to_be_bytes());
    pen.put(&attributes_len.to_be_bytes());
    pen.put(attributes);
    Ok(pen.written())
}
