//! Peer tables. The crate keeps peers in maps of its own, so refusals 8 and 9 of lent slots and output have no
//! counterpart in it: those cases are not asked.

use crate::answers::{Address, Answer, Peer, PeerTable};
use crate::subject::NewTable;
use bgpkit_part::models::{self, Asn, PeerIndexTable, PeerType};
use bgpkit_part::parser::mrt::messages::table_dump_v2::peer_index_table::parse_peer_index_table;
use bgpkit_part::Bytes;
use std::collections::HashMap;
use std::net::{IpAddr, Ipv4Addr, Ipv6Addr};

const MOST_PEERS: usize = 65_535;

pub fn read(body: &[u8], slots: &mut [Peer]) -> Option<Answer<PeerTable>> {
    let Ok(table) = parse_peer_index_table(&mut Bytes::copy_from_slice(body)) else {
        return Some(Err(7).into());
    };
    let count = table.id_peer_map.len();
    let lent = slots.get_mut(..count)?;
    for (&id, peer) in &table.id_peer_map {
        lent[usize::from(id)] = slot_of(peer);
    }
    let (view_at, view_len) = view_of(body, &table);
    Some(Ok(PeerTable { collector: table.collector_bgp_id.into(), view_at, view_len, count }).into())
}

/// The crate keeps a copy of the view name. It stands after six octets; if other octets stand there, say so.
fn view_of(body: &[u8], table: &PeerIndexTable) -> (usize, usize) {
    let name = table.view_name.as_bytes();
    let at = if body[6..].starts_with(name) { 6 } else { usize::MAX };
    (at, name.len())
}

fn slot_of(peer: &models::Peer) -> Peer {
    let mut address = [0; 16];
    match peer.peer_ip {
        IpAddr::V4(ip) => address[..4].copy_from_slice(&ip.octets()),
        IpAddr::V6(ip) => address = ip.octets(),
    }
    Peer { kind: peer.peer_type.bits(), id: peer.peer_bgp_id.into(), address, asn: peer.peer_asn.to_u32() }
}

fn peer_of(slot: &Peer) -> models::Peer {
    let peer_asn = match u16::try_from(slot.asn) {
        Ok(asn) if !slot.has_wide_as() => Asn::new_16bit(asn),
        _ => Asn::new_32bit(slot.asn),
    };
    models::Peer {
        peer_type: PeerType::from_bits_retain(slot.kind),
        peer_bgp_id: Ipv4Addr::from(slot.id),
        peer_ip: ip_of(&Address { ipv6: slot.has_ipv6(), octets: slot.address }),
        peer_asn,
    }
}

fn ip_of(address: &Address) -> IpAddr {
    if address.ipv6 {
        return IpAddr::V6(Ipv6Addr::from(address.octets));
    }
    let [a, b, c, d, ..] = address.octets;
    IpAddr::V4(Ipv4Addr::new(a, b, c, d))
}

/// The crate's table of the peers in use; of equal addresses the last one's id stays, as after its own reader.
fn table_of(slots: &[Peer], count: usize) -> Option<PeerIndexTable> {
    let used = slots.get(..count).filter(|_| count <= MOST_PEERS)?;
    let mut table = PeerIndexTable {
        collector_bgp_id: Ipv4Addr::UNSPECIFIED,
        view_name: String::new(),
        id_peer_map: HashMap::new(),
        peer_ip_id_map: HashMap::new(),
    };
    for (id, slot) in (0u16..).zip(used) {
        let peer = peer_of(slot);
        table.id_peer_map.insert(id, peer);
        table.peer_ip_id_map.insert(peer.peer_ip, id);
    }
    Some(table)
}

pub fn find(slots: &[Peer], count: usize, address: &Address) -> Option<Answer<usize>> {
    let found = table_of(slots, count)?.get_peer_id_by_addr(&ip_of(address));
    Some(found.map(usize::from).ok_or(8).into())
}

pub fn add(slots: &mut [Peer], count: usize, peer: &Peer) -> Option<Answer<usize>> {
    let mut table = table_of(slots, count)?;
    let new = peer_of(peer);
    let known = table.get_peer_id_by_addr(&new.peer_ip).is_some();
    let Ok(id) = table.add_peer(new) else {
        return Some(Err(10).into());
    };
    if !known {
        *slots.get_mut(usize::from(id))? = slot_of(table.get_peer_by_id(&id)?);
    }
    Some(Ok(usize::from(id)).into())
}

/// The crate's view name is text, so other octets are not asked.
pub fn write(out: &mut [u8], table: &NewTable) -> Option<Answer<usize>> {
    let mut full = table_of(table.slots, table.count)?;
    full.collector_bgp_id = Ipv4Addr::from(table.collector);
    full.view_name = String::from_utf8(table.view.to_vec()).ok()?;
    let Ok(octets) = full.encode() else {
        return Some(Err(10).into());
    };
    out.get_mut(..octets.len())?.copy_from_slice(&octets);
    Some(Ok(octets.len()).into())
}
