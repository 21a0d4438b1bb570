//! Peer tables.

use mrt::{Added, Peer, PeerIndex, PeerTable, Record, Refusal};
use std::net::IpAddr;

/// Something that no call writes.
const FILL: Peer = Peer { kind: 0x5a, id: 0x5a5a5a5a, addr: [0x5a; 16], asn: 0x5a5a5a5a };

fn address(text: &str) -> IpAddr {
    text.parse().unwrap()
}

fn peer(text: &str, asn: u32) -> Peer {
    Peer::new(address(text), 0xc0000201, asn)
}

/// A table of one peer of each size: 11, 13, 23 and 25 octets.
fn body() -> Vec<u8> {
    let mut body = vec![192, 0, 2, 9, 0, 1, b'v', 0, 4];
    for kind in 0..4u8 {
        body.extend([kind, 0, 0, 0, kind + 1]);
        body.extend(vec![10 + kind; if kind & Peer::IPV6 == 0 { 4 } else { 16 }]);
        body.extend([0; 2].repeat(usize::from(kind / 2)));
        body.extend([1, kind]);
    }
    body
}

#[test]
fn a_body_is_read_into_exactly_as_many_slots() {
    let body = body();
    let index = PeerIndex::read(&body).unwrap();
    assert_eq!((index.collector, index.view, index.count, index.first, index.end), (0xc0000209, &b"v"[..], 4, 9, 81));
    let mut slots = [FILL; 4];
    let table = PeerTable::load(&body, &mut slots).unwrap();
    assert_eq!((table.len(), table.is_empty(), table.peers().len()), (4, false, 4));
    for kind in 0..4u8 {
        let mut addr = [0; 16];
        addr[..if kind & Peer::IPV6 == 0 { 4 } else { 16 }].fill(10 + kind);
        let expected = Peer { kind, id: u32::from(kind) + 1, addr, asn: 256 + u32::from(kind) };
        assert_eq!(table.get(kind.into()), Some(&expected));
        assert_eq!(table.find(expected.address()), Some(kind.into()));
    }
    assert_eq!((table.get(4), table.get(u16::MAX)), (None, None));
}

#[test]
fn later_slots_keep_what_they_had_and_a_refusal_leaves_all() {
    let body = body();
    let mut slots = [FILL; 5];
    assert_eq!(PeerTable::load(&body, &mut slots[..3]).unwrap_err(), Refusal::NoRoom);
    assert_eq!(PeerTable::load(&body, &mut []).unwrap_err(), Refusal::NoRoom);
    assert_eq!(PeerTable::load(&body[..80], &mut slots).unwrap_err(), Refusal::BodyNotMet);
    assert_eq!(PeerTable::load(&[], &mut slots).unwrap_err(), Refusal::BodyNotMet);
    assert_eq!(slots, [FILL; 5]);
    assert_eq!(PeerTable::load(&body, &mut slots).unwrap().get(4), None);
    assert_eq!(slots[4], FILL);
    assert!(PeerTable::load(&[0; 8], &mut []).unwrap().is_empty());
    assert_eq!(PeerIndex::read(&[0; 7]), Err(Refusal::BodyNotMet));
}

#[test]
fn a_table_that_was_read_is_written_as_the_same_octets() {
    let body = body();
    let mut slots = [FILL; 4];
    let table = PeerTable::load(&body, &mut slots).unwrap();
    for room in [0, 80] {
        let mut out = vec![0x5a; room];
        assert_eq!(table.write(&mut out, 0xc0000209, b"v"), Err(Refusal::NoRoom));
        assert!(out.iter().all(|octet| *octet == 0x5a));
    }
    let mut out = [0x5a; 82];
    assert_eq!(table.write(&mut out[..81], 0xc0000209, b"v"), Ok(81));
    assert_eq!(table.write(&mut out, 0xc0000209, b"v"), Ok(81));
    assert_eq!((&out[..81], out[81]), (&body[..], 0x5a));
}

#[test]
fn the_next_id_is_the_count_and_the_highest_id_is_found() {
    let mut slots = [FILL; 4];
    slots[..3].copy_from_slice(&[peer("192.0.2.1", 1), peer("192.0.2.1", 2), peer("192.0.2.2", 3)]);
    let mut table = PeerTable::with_peers(&mut slots, 3).unwrap();
    assert_eq!(table.find(address("192.0.2.1")), Some(1));
    assert_eq!(table.add(&peer("192.0.2.1", 9)), Ok(Added::Known(1)));
    assert_eq!(table.find(address("192.0.2.3")), None);
    assert_eq!(table.add(&peer("192.0.2.3", 4)), Ok(Added::New(3)));
    assert_eq!(table.add(&peer("192.0.2.4", 5)), Err(Refusal::NoRoom));
    assert_eq!(table.add(&peer("192.0.2.2", 5)), Ok(Added::Known(2)));
    assert_eq!(table.peers().iter().map(|peer| peer.asn).collect::<Vec<_>>(), [1, 2, 3, 4]);
}

#[test]
fn a_table_with_no_slots_holds_nothing() {
    let mut table = PeerTable::new(&mut []);
    assert_eq!(table.find(address("0.0.0.0")), None);
    assert_eq!(table.add(&peer("192.0.2.1", 1)), Err(Refusal::NoRoom));
    let mut out = [0x5a; 8];
    assert_eq!(table.write(&mut out, 0, &[]), Ok(8));
    assert_eq!(out, [0; 8]);
}

#[test]
fn a_count_beyond_the_slots_or_the_field_is_refused() {
    let mut slots = vec![FILL; 65_536];
    assert_eq!(PeerTable::with_peers(&mut slots[..2], 3).unwrap_err(), Refusal::Beyond);
    assert_eq!(PeerTable::with_peers(&mut slots, 65_536).unwrap_err(), Refusal::Beyond);
    let mut table = PeerTable::with_peers(&mut slots, 65_535).unwrap();
    assert_eq!(table.add(&peer("192.0.2.1", 1)), Err(Refusal::TooLarge));
    slots[65_534] = peer("192.0.2.1", 1);
    let mut table = PeerTable::with_peers(&mut slots, 65_534).unwrap();
    assert_eq!(table.add(&peer("192.0.2.2", 1)), Ok(Added::New(65_534)));
    assert_eq!((table.find(address("192.0.2.2")), table.len()), (Some(65_534), 65_535));
    assert_eq!(slots[65_535], FILL);
}

#[test]
fn an_ipv4_address_is_its_first_four_octets_alone() {
    let mut odd = peer("192.0.2.1", 1);
    odd.addr[15] = 7;
    let mut slots = [FILL; 2];
    let mut table = PeerTable::new(&mut slots);
    assert_eq!(table.add(&odd), Ok(Added::New(0)));
    assert_eq!(table.get(0), Some(&peer("192.0.2.1", 1)));
    assert_eq!(table.find(address("c000:201::")), None);
    assert_eq!(table.add(&peer("c000:201::", 1)), Ok(Added::New(1)));
    assert_eq!(table.find(address("192.0.2.1")), Some(0));
}

#[test]
fn what_does_not_fit_its_field_is_not_written() {
    let mut slots = [Peer { kind: 0, asn: 65_536, ..peer("192.0.2.1", 0) }];
    let table = PeerTable::with_peers(&mut slots, 1).unwrap();
    let mut out = vec![0x5a; 70_000];
    assert_eq!(table.write(&mut out, 0, &[]), Err(Refusal::TooLarge));
    let table = PeerTable::new(&mut slots);
    assert_eq!(table.write(&mut out, 0, &[0; 65_536]), Err(Refusal::TooLarge));
    assert!(out.iter().all(|octet| *octet == 0x5a));
    assert_eq!(table.write(&mut out, 0, &[1; 65_535]), Ok(65_543));
    assert_eq!(PeerIndex::read(&out[..65_543]).unwrap().view, [1; 65_535]);
}

#[test]
fn a_record_gives_its_peer_index() {
    let stream = crate::record(13, 1, &body());
    let record = Record::read(&stream, 0).unwrap();
    assert_eq!(record.peer_index(), PeerIndex::read(&body()).ok());
    assert!(record.rib().is_none());
}
