//! TABLE_DUMP bodies.

use super::{be16, be32};
use mrt_oracle::answers::{DumpedRoute, TableDump};

/// The octets of an address by subtype.
#[inline(always)]
pub fn address_size(subtype: u16) -> Option<usize> {
    match subtype {
        1 => Some(4),
        2 => Some(16),
        _ => None,
    }
}

/// Whether the attributes end where the body does, and the prefix has no more bits than an address.
#[inline(always)]
pub fn is_met(size: usize, body: &[u8]) -> bool {
    let fixed = 14 + 2 * size;
    let Some(front) = body.get(..fixed) else {
        return false;
    };
    usize::from(be16(front, fixed - 2)) == body.len() - fixed && usize::from(front[4 + size]) <= 8 * size
}

/// The whole body: 6, 7.
#[inline(always)]
pub fn read(subtype: u16, body: &[u8]) -> Result<TableDump, u8> {
    let size = address_size(subtype).ok_or(6)?;
    if !is_met(size, body) {
        return Err(7);
    }
    // A size that is written out for each family, so that an address is one load.
    Ok(if size == 4 { fields::<4>(body) } else { fields::<16>(body) })
}

/// The fields of a body that is met, by its address size.
#[inline(always)]
fn fields<const SIZE: usize>(body: &[u8]) -> TableDump {
    let fixed = 14 + 2 * SIZE;
    let front = &body[..fixed];
    let (mut prefix, mut peer) = ([0; 16], [0; 16]);
    prefix[..SIZE].copy_from_slice(&front[4..4 + SIZE]);
    peer[..SIZE].copy_from_slice(&front[10 + SIZE..10 + 2 * SIZE]);
    let route = DumpedRoute {
        view: be16(front, 0),
        sequence: be16(front, 2),
        prefix,
        bits: front[4 + SIZE],
        status: front[5 + SIZE],
        originated: be32(front, 6 + SIZE),
        peer,
        asn: u32::from(be16(front, 10 + 2 * SIZE)),
    };
    TableDump { route, attributes_at: fixed, attributes_end: body.len() }
}

/// What a body says, but for its addresses.
#[inline(always)]
pub fn values(read: &TableDump) -> [u64; 8] {
    let DumpedRoute { view, sequence, bits, status, originated, asn, .. } = read.route;
    let (start, end) = (read.attributes_at as u64, read.attributes_end as u64);
    [view.into(), sequence.into(), bits.into(), status.into(), originated.into(), asn.into(), start, end]
}
