//! Peer tables in lent slots.

use super::{be16, be32};
use mrt_oracle::answers::Peer;

const MOST_PEERS: usize = 65_535;
/// Collector id, view name length and peer count.
const FIXED: usize = 8;

/// What stands before the peers of a body that holds them all.
pub struct Head {
    pub count: usize,
    pub first: usize,
}

#[inline(always)]
fn address_size(kind: u8) -> usize {
    if kind & 1 != 0 {
        16
    } else {
        4
    }
}

#[inline(always)]
fn peer_size(kind: u8) -> usize {
    11 + 12 * usize::from(kind & 1) + usize::from(kind & 2)
}

/// The same by the low two bits of the type.
const SIZES: [usize; 4] = [11, 23, 13, 25];

pub fn head(body: &[u8]) -> Option<Head> {
    if body.len() < FIXED {
        return None;
    }
    let first = FIXED + usize::from(be16(body, 4));
    if body.len() < first {
        return None;
    }
    let count = usize::from(be16(body, first - 2));
    let mut at = first;
    for _ in 0..count {
        at += peer_size(*body.get(at)?);
    }
    (at <= body.len()).then_some(Head { count, first })
}

/// The peers of a body in the first slots, and their number: 7, then 9.
pub fn load(body: &[u8], slots: &mut [Peer]) -> Result<usize, u8> {
    let head = head(body).ok_or(7)?;
    let lent = slots.get_mut(..head.count).ok_or(9)?;
    let mut rest = &body[head.first..];
    for slot in lent {
        let (front, after) = rest.split_at(peer_size(rest[0]));
        *slot = peer(front);
        rest = after;
    }
    Ok(head.count)
}

/// The peer that fills these octets.
#[inline(always)]
fn peer(octets: &[u8]) -> Peer {
    let kind = octets[0];
    let size = address_size(kind);
    let mut address = [0; 16];
    if size == 16 {
        address.copy_from_slice(&octets[5..21]);
    } else {
        address[..4].copy_from_slice(&octets[5..9]);
    }
    // The first two octets of the AS count where there are four: no branch on its size.
    let high = u32::from(be16(octets, 5 + size)) & 0u32.wrapping_sub(u32::from(kind >> 1 & 1));
    let asn = high << 16 | u32::from(be16(octets, octets.len() - 2));
    Peer { kind, id: be32(octets, 1), address, asn }
}

/// The highest id that holds an address. The count is not beyond the slots. The first four octets, which nearly always
/// differ, are looked at before the family, which the processor cannot foresee.
pub fn find(slots: &[Peer], count: usize, ipv6: bool, address: &[u8; 16]) -> Option<usize> {
    let used = slots.get(..count).filter(|_| count <= MOST_PEERS)?;
    let four = be32(address, 0);
    if ipv6 {
        return used.iter().rposition(|peer| {
            be32(&peer.address, 0) == four && peer.kind & 1 != 0 && peer.address[4..] == address[4..]
        });
    }
    used.iter().rposition(|peer| be32(&peer.address, 0) == four && peer.kind & 1 == 0)
}

/// The id of a peer, stored after the last one in use where its address is not known: 8, 10, 9.
pub fn add(slots: &mut [Peer], count: usize, new: &Peer) -> Result<usize, u8> {
    if count > MOST_PEERS || count > slots.len() {
        return Err(8);
    }
    if let Some(id) = find(slots, count, new.kind & 1 != 0, &new.address) {
        return Ok(id);
    }
    if count == MOST_PEERS {
        return Err(10);
    }
    let slot = slots.get_mut(count).ok_or(9)?;
    *slot = *new;
    slot.address[address_size(new.kind)..].fill(0);
    Ok(count)
}

/// The slots in use as a body at the front of the output: 8, 10, 9.
pub fn write(out: &mut [u8], collector: u32, view: &[u8], slots: &[Peer], count: usize) -> Result<usize, u8> {
    let used = slots.get(..count).filter(|_| count <= MOST_PEERS).ok_or(8)?;
    let view_len = u16::try_from(view.len()).map_err(|_| 10)?;
    let mut size = FIXED + view.len();
    let mut fits = true;
    for peer in used {
        // No branch on what the processor cannot foresee.
        size += SIZES[usize::from(peer.kind & 3)];
        fits &= peer.kind & 2 != 0 || peer.asn <= 65_535;
    }
    if !fits {
        return Err(10);
    }
    let out = out.get_mut(..size).ok_or(9)?;
    let (front, mut rest) = out.split_at_mut(FIXED + view.len());
    front[..4].copy_from_slice(&collector.to_be_bytes());
    front[4..6].copy_from_slice(&view_len.to_be_bytes());
    front[6..6 + view.len()].copy_from_slice(view);
    front[6 + view.len()..].copy_from_slice(&(count as u16).to_be_bytes());
    for peer in used {
        let (octets, after) = rest.split_at_mut(peer_size(peer.kind));
        put(octets, peer);
        rest = after;
    }
    Ok(size)
}

/// A peer into the octets that it fills.
#[inline(always)]
fn put(octets: &mut [u8], peer: &Peer) {
    octets[0] = peer.kind;
    octets[1..5].copy_from_slice(&peer.id.to_be_bytes());
    let asn = if peer.kind & 1 != 0 {
        octets[5..21].copy_from_slice(&peer.address);
        21
    } else {
        octets[5..9].copy_from_slice(&peer.address[..4]);
        9
    };
    // The upper half, or the whole AS where it has two octets, and then the lower half in the last two: no branch on its size.
    let upper = (peer.asn >> (16 * u32::from(peer.kind >> 1 & 1))) as u16;
    octets[asn..asn + 2].copy_from_slice(&upper.to_be_bytes());
    let last = octets.len() - 2;
    octets[last..].copy_from_slice(&(peer.asn as u16).to_be_bytes());
}
