//! PEER_INDEX_TABLE, read, looked up, added to and written (RFC 6396, 4.3.1; 01, Peer table).

use super::octets::{be16, be32, Pen};
use crate::answers::{Address, Answer, Peer, PeerTable};

/// The most peers that a table holds, as its count has two octets.
const MOST_PEERS: usize = 65_535;
/// Collector id, view name length and peer count.
const FIXED: usize = 8;

/// How many octets a peer takes: 11, 13, 23 or 25.
fn peer_size(kind: u8) -> usize {
    5 + address_size(kind) + as_size(kind)
}

fn address_size(kind: u8) -> usize {
    if kind & 1 != 0 {
        16
    } else {
        4
    }
}

fn as_size(kind: u8) -> usize {
    if kind & 2 != 0 {
        4
    } else {
        2
    }
}

/// Reads a whole table into the first slots: 7 for a body that does not hold every declared peer, then 9.
pub fn read_peers(body: &[u8], slots: &mut [Peer]) -> Answer<PeerTable> {
    let Some(table) = whole_table(body) else {
        return Err(7).into();
    };
    let Some(lent) = slots.get_mut(..table.count) else {
        return Err(9).into();
    };
    let mut at = first_peer(&table);
    for slot in lent {
        *slot = peer_at(body, at);
        at += peer_size(slot.kind);
    }
    Ok(table).into()
}

pub fn holds_every_peer(body: &[u8]) -> bool {
    whole_table(body).is_some()
}

fn first_peer(table: &PeerTable) -> usize {
    FIXED + table.view_len
}

/// What stands before the peers, where every declared peer is held.
fn whole_table(body: &[u8]) -> Option<PeerTable> {
    let table = table_head(body)?;
    let mut rest = &body[first_peer(&table)..];
    for _ in 0..table.count {
        let kind = *rest.first()?;
        rest = rest.get(peer_size(kind)..)?;
    }
    Some(table)
}

fn table_head(body: &[u8]) -> Option<PeerTable> {
    if body.len() < FIXED {
        return None;
    }
    let view_len = usize::from(be16(body, 4));
    if body.len() - FIXED < view_len {
        return None;
    }
    let count = usize::from(be16(body, 6 + view_len));
    Some(PeerTable { collector: be32(body, 0), view_at: 6, view_len, count })
}

/// The peer at an offset of a body and where the next one starts: 8 beyond the body, then 7 where it does not fit.
pub fn read_peer(body: &[u8], at: usize) -> Answer<(Peer, usize)> {
    let peer = body.get(at..).ok_or(8).and_then(|rest| {
        let size = peer_size(*rest.first().ok_or(7)?);
        rest.get(..size).ok_or(7)?;
        Ok((peer_at(body, at), at + size))
    });
    peer.into()
}

/// The peer at an offset. The caller knows that it is held.
fn peer_at(body: &[u8], at: usize) -> Peer {
    let kind = body[at];
    let size = address_size(kind);
    let mut address = [0; 16];
    address[..size].copy_from_slice(&body[at + 5..at + 5 + size]);
    let as_at = at + 5 + size;
    let asn = if as_size(kind) == 4 { be32(body, as_at) } else { u32::from(be16(body, as_at)) };
    Peer { kind, id: be32(body, at + 1), address, asn }
}

/// The peers in use, or 8 for a count beyond the slots or beyond what a table can hold.
fn used(slots: &[Peer], count: usize) -> Result<&[Peer], u8> {
    if count > MOST_PEERS {
        return Err(8);
    }
    slots.get(..count).ok_or(8)
}

/// The highest id that holds an address: 8 for the count, or where none holds it.
pub fn find_peer(slots: &[Peer], count: usize, address: &Address) -> Answer<usize> {
    used(slots, count).and_then(|peers| position(peers, address).ok_or(8)).into()
}

fn position(peers: &[Peer], address: &Address) -> Option<usize> {
    peers.iter().rposition(|peer| holds(peer, address))
}

/// Family and octets agree. Of an IPv4 address only the first four octets are looked at.
fn holds(peer: &Peer, address: &Address) -> bool {
    let size = address_size(peer.kind);
    peer.has_ipv6() == address.ipv6 && peer.address[..size] == address.octets[..size]
}

/// Adds a peer and answers its id: 8 for the count; a known address has its id; then 10, then 9.
pub fn add_peer(slots: &mut [Peer], count: usize, peer: &Peer) -> Answer<usize> {
    place(slots, count, peer)
        .inspect(|&id| {
            if id == count {
                slots[id] = Peer { address: clean_address(peer), ..*peer };
            }
        })
        .into()
}

/// The id that the peer has or is to have.
fn place(slots: &[Peer], count: usize, peer: &Peer) -> Result<usize, u8> {
    let address = Address { ipv6: peer.has_ipv6(), octets: peer.address };
    if let Some(id) = position(used(slots, count)?, &address) {
        return Ok(id);
    }
    if count == MOST_PEERS {
        return Err(10);
    }
    if count == slots.len() {
        return Err(9);
    }
    Ok(count)
}

/// A four-octet address with zeros after it.
fn clean_address(peer: &Peer) -> [u8; 16] {
    let mut clean = [0; 16];
    let size = address_size(peer.kind);
    clean[..size].copy_from_slice(&peer.address[..size]);
    clean
}

/// Writes a table at the front of the output: 8, then 10, then 9.
pub fn write_peers(out: &mut [u8], collector: u32, view: &[u8], slots: &[Peer], count: usize) -> Answer<usize> {
    used(slots, count).and_then(|peers| put_table(out, collector, view, peers)).into()
}

fn put_table(out: &mut [u8], collector: u32, view: &[u8], peers: &[Peer]) -> Result<usize, u8> {
    let view_len = u16::try_from(view.len()).map_err(|_| 10)?;
    if peers.iter().any(|peer| as_size(peer.kind) == 2 && peer.asn > 65_535) {
        return Err(10);
    }
    let size: usize = peers.iter().map(|peer| peer_size(peer.kind)).sum();
    if out.len() < FIXED + view.len() + size {
        return Err(9);
    }
    let mut pen = Pen::new(out);
    pen.put(&collector.to_be_bytes());
    pen.put(&view_len.to_be_bytes());
    pen.put(view);
    pen.put(&(peers.len() as u16).to_be_bytes());
    for peer in peers {
        put_peer(&mut pen, peer);
    }
    Ok(pen.written())
}

fn put_peer(pen: &mut Pen, peer: &Peer) {
    pen.put(&[peer.kind]);
    pen.put(&peer.id.to_be_bytes());
    pen.put(&peer.address[..address_size(peer.kind)]);
    pen.put(&peer.asn.to_be_bytes()[4 - as_size(peer.kind)..]);
}
