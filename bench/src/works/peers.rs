//! Peer tables: read into slots, looked up, written.

use crate::expert;
use crate::measure::Work;
use bgpkit_part::models::PeerIndexTable;
use bgpkit_part::parser::mrt::messages::table_dump_v2::peer_index_table::parse_peer_index_table;
use bgpkit_part::Bytes;
use mrt_oracle::answers::Peer;
use mrt_oracle::exports;
use mrt_oracle::random::Random;
use std::net::{IpAddr, Ipv4Addr, Ipv6Addr};

const COLLECTOR: u32 = 0xc000_0201;
const VIEW: &[u8] = b"view";

/// A table of so many peers of all four sizes, no address twice, as slots and as a body.
pub struct Table {
    slots: Vec<Peer>,
    body: Vec<u8>,
    by_crate: PeerIndexTable,
}

impl Table {
    pub fn new(count: usize) -> Self {
        let mut random = Random::new(2);
        let slots: Vec<Peer> = (0..count as u32).map(|number| some_peer(number, &mut random)).collect();
        let mut body = vec![0; 8 + VIEW.len() + 25 * count];
        let size = expert::peers::write(&mut body, COLLECTOR, VIEW, &slots, count).expect("the peers fit");
        body.truncate(size);
        let by_crate = parse(&Bytes::copy_from_slice(&body));
        Table { slots, body, by_crate }
    }

    /// The body into slots. The crate's maps are checked by writing them again.
    pub fn read(&self, name: &str) -> Work<'_> {
        let octets = Bytes::copy_from_slice(&self.body);
        let mut slots = [vec![Peer::default(); self.slots.len()], vec![Peer::default(); self.slots.len()]];
        exports::load_peers(&self.body, &mut slots[0]);
        assert_eq!(slots[0], self.slots, "{name}: the slots of the proved call");
        assert_eq!(expert::peers::load(&self.body, &mut slots[1]), Ok(self.slots.len()));
        assert_eq!(slots[1], self.slots, "{name}: the slots of the expert's Rust");
        assert_eq!(self.by_crate.encode().as_deref().ok(), Some(&self.body[..]), "{name}: the crate's table");
        let [mut ours, mut theirs] = slots;
        Work {
            name: name.to_string(),
            by_crate: Some(Box::new(move || u64::from(parse(&octets).id_peer_map.is_empty()))),
            expert: Box::new(move || expert::peers::load(&self.body, &mut theirs).map_or(1, |_| 0)),
            walled: None,
            ours: Box::new(move || u64::from(exports::load_peers(&self.body, &mut ours))),
        }
    }

    /// So many addresses looked up, from all over the table; every eighth is not held.
    pub fn find(&self, name: &str, lookups: usize) -> Work<'_> {
        let keys: Vec<(bool, [u8; 16])> = (0..lookups).map(|place| self.key(place, lookups)).collect();
        let ips: Vec<IpAddr> = keys.iter().map(|&(ipv6, octets)| ip(ipv6, octets)).collect();
        let [ours, theirs] = [keys.clone(), keys];
        let (slots, count) = (&self.slots, self.slots.len());
        let by_crate = move || ips.iter().map(|ip| known(self.by_crate.get_peer_id_by_addr(ip))).sum::<u64>();
        let expert = move || {
            let ids = theirs.iter().map(|(ipv6, key)| expert::peers::find(slots, count, *ipv6, key));
            ids.map(|id| known(id.map(|id| id as u16))).sum()
        };
        let ours = move || {
            let ids = ours.iter().map(|(ipv6, key)| exports::find_peer(slots, count, u8::from(*ipv6), key));
            ids.map(|found| known((found.refusal == 0).then_some(found.id as u16))).sum()
        };
        Work {
            name: name.to_string(),
            by_crate: Some(Box::new(by_crate)),
            expert: Box::new(expert),
            walled: None,
            ours: Box::new(ours),
        }
    }

    fn key(&self, place: usize, lookups: usize) -> (bool, [u8; 16]) {
        if place % 8 == 7 {
            return (place % 16 == 7, [255; 16]);
        }
        let peer = self.slots[place * self.slots.len() / lookups];
        (peer.has_ipv6(), peer.address)
    }

    /// The slots as a body.
    pub fn write(&self, name: &str) -> Work<'_> {
        let (slots, count) = (&self.slots, self.slots.len());
        let [mut ours, mut theirs] = [vec![0; self.body.len()], vec![0; self.body.len()]];
        exports::write_peers(&mut ours, COLLECTOR, VIEW, slots, count);
        assert_eq!(ours, self.body, "{name}: the octets of the proved call");
        let octets = move || self.by_crate.encode().map_or(0, |octets| octets.len() as u64);
        Work {
            name: name.to_string(),
            by_crate: Some(Box::new(octets)),
            expert: Box::new(move || {
                expert::peers::write(&mut theirs, COLLECTOR, VIEW, slots, count).unwrap_or(0) as u64
            }),
            walled: None,
            ours: Box::new(move || exports::write_peers(&mut ours, COLLECTOR, VIEW, slots, count).octets),
        }
    }

    /// A table of the same peers, added one by one to no slots in use. The crate's maps are not compared: they find by
    /// hashing what the slots find by looking.
    pub fn add(&self, name: &str) -> Work<'_> {
        let [mut ours, mut theirs] = [self.slots.clone(), self.slots.clone()];
        let expert = move || {
            let ids = self.slots.iter().enumerate().map(|(count, peer)| expert::peers::add(&mut theirs, count, peer));
            ids.map(|id| id.unwrap_or(0) as u64).sum()
        };
        let ours = move || {
            let ids =
                self.slots.iter().enumerate().map(|(count, peer)| {
                    exports::add_peer(&mut ours, count, peer.kind, peer.id, &peer.address, peer.asn)
                });
            ids.map(|found| u64::from(found.id)).sum()
        };
        Work { name: name.to_string(), by_crate: None, expert: Box::new(expert), walled: None, ours: Box::new(ours) }
    }
}

fn parse(body: &Bytes) -> PeerIndexTable {
    parse_peer_index_table(&mut body.clone()).expect("the body holds its peers")
}

/// A peer whose address has its number, in one of the four sizes.
fn some_peer(number: u32, random: &mut Random) -> Peer {
    let kind = random.below(4) as u8;
    let mut address = [0; 16];
    address[..4].copy_from_slice(&number.to_be_bytes());
    if kind & 1 != 0 {
        address[4..12].copy_from_slice(&random.number().to_be_bytes());
    }
    Peer { kind, id: random.number() as u32, address, asn: random.number() as u32 % 65_536 }
}

fn ip(ipv6: bool, octets: [u8; 16]) -> IpAddr {
    let [a, b, c, d, ..] = octets;
    if ipv6 {
        IpAddr::V6(Ipv6Addr::from(octets))
    } else {
        IpAddr::V4(Ipv4Addr::new(a, b, c, d))
    }
}

/// A number for the answer of a lookup.
fn known(id: Option<u16>) -> u64 {
    id.map_or(1 << 32, u64::from)
}
