//! Peer tables: every mix of up to three peers cut at every octet, and random tables read, looked up, added to and
//! written, with every room around what is needed.

use super::Put;
use crate::answers::{Address, Peer};
use crate::make;
use crate::question::Question;
use crate::random::Random;
use crate::subject::NewTable;

/// Both families, both AS widths, and the same with all the bits that mean nothing.
const KINDS: [u8; 8] = [0, 1, 2, 3, 252, 253, 254, 255];

/// A slot that no table has.
const UNUSED: Peer = Peer { kind: 0xee, id: 0xeeee_eeee, address: [0xee; 16], asn: 0xeeee_eeee };

pub fn run(put: Put, random: &mut Random) {
    short_tables(put);
    for _ in 0..40_000 {
        random_table(put, random);
        random_slots(put, random);
    }
    full_tables(put);
}

fn short_tables(put: Put) {
    for first in KINDS {
        for second in KINDS {
            for third in KINDS {
                let peers = [make::peer(first, 1, 1), make::peer(second, 2, 65_535), make::peer(third, 1, 7)].concat();
                every_cut(put, &make::peer_table(b"", 3, &peers));
            }
        }
        for view in [&b""[..], b"a", b"name", &[0xff], &[0xc3, 0xa9], &[0xc3]] {
            for count in 0..4 {
                every_cut(put, &make::peer_table(view, count, &make::peer(first, 9, 9).repeat(2)));
            }
        }
    }
}

fn every_cut(put: Put, body: &[u8]) {
    for length in 0..=body.len() {
        put(&Question::PeerRead { body: &body[..length], slots: &[UNUSED; 4] });
    }
}

fn random_table(put: Put, random: &mut Random) {
    let count = random.below(8);
    let peers: Vec<u8> = (0..count).flat_map(|_| some_peer(random)).collect();
    let view_len = random.pick(&[0, 1, 2, 5, 20]);
    let view = if random.once_in(2) { random.octets(view_len) } else { vec![b'v'; view_len] };
    let declared = (count + random.below(3)).saturating_sub(1) as u16;
    let mut body = make::peer_table(&view, declared, &peers);
    if random.once_in(3) {
        body.truncate(random.below(body.len() + 1));
    }
    let slots = vec![UNUSED; random.below(12)];
    put(&Question::PeerRead { body: &body, slots: &slots });
}

fn some_peer(random: &mut Random) -> Vec<u8> {
    let kind = if random.once_in(4) { random.octet() } else { random.below(4) as u8 };
    make::peer(kind, random.below(4) as u8, random.number() as u32)
}

/// Few addresses, so that the same one often stands twice, and octets after a four-octet address that mean nothing.
fn some_slot(random: &mut Random) -> Peer {
    let mut address = [0; 16];
    address[random.pick(&[0, 3, 4, 15])] = random.below(3) as u8;
    let asn = random.pick(&[0, 65_535, 65_536, u32::MAX, 64_512]);
    Peer { kind: random.octet() & random.pick(&[3, 255]), id: random.number() as u32, address, asn }
}

fn random_slots(put: Put, random: &mut Random) {
    let slots: Vec<Peer> = (0..random.below(10)).map(|_| some_slot(random)).collect();
    let count = random.below(slots.len() + 2);
    let peer = some_slot(random);
    let address = Address { ipv6: random.once_in(2), octets: some_slot(random).address };
    put(&Question::PeerFind { slots: &slots, count, address });
    put(&Question::PeerFind { slots: &slots, count: 65_536, address });
    put(&Question::PeerAdd { slots: &slots, count, peer });
    let view_len = random.pick(&[0, 1, 9]);
    let view = if random.once_in(4) { random.octets(view_len) } else { vec![b'w'; view_len] };
    let table = NewTable { collector: random.number() as u32, view: &view, slots: &slots, count };
    let room = random.pick(&[0, 7, 8, 30, 60, 300]) + random.below(30);
    put(&Question::PeerWrite { room: &vec![0xaa; room], table });
}

/// A slot whose address is its number.
fn numbered_slot(number: u32) -> Peer {
    let mut address = [0; 16];
    address[..4].copy_from_slice(&number.to_be_bytes());
    Peer { kind: 2, id: number, address, asn: number }
}

/// Around 65,535 peers and a view name of 65,535 octets.
fn full_tables(put: Put) {
    let slots: Vec<Peer> = (0..65_537).map(numbered_slot).collect();
    for count in [65_534, 65_535, 65_536] {
        for lent in [count, count + 1] {
            let new = numbered_slot(70_000);
            put(&Question::PeerAdd { slots: &slots[..lent], count, peer: new });
            put(&Question::PeerAdd { slots: &slots[..lent], count, peer: slots[5] });
        }
        let address = Address { ipv6: false, octets: slots[count - 1].address };
        put(&Question::PeerFind { slots: &slots, count, address });
        let table = NewTable { collector: 1, view: b"all", slots: &slots, count };
        for room in [8 + 3 + 13 * count - 1, 8 + 3 + 13 * count] {
            put(&Question::PeerWrite { room: &vec![0xaa; room], table });
        }
    }
    let peers: Vec<u8> = (0..65_535).flat_map(|_| make::peer(0, 1, 1)).collect();
    put(&Question::PeerRead { body: &make::peer_table(b"", 65_535, &peers), slots: &slots });
    put(&Question::PeerRead { body: &make::peer_table(b"", 65_535, &peers[1..]), slots: &slots });
    for length in [65_534, 65_535, 65_536] {
        let view = vec![b'x'; length];
        let table = NewTable { collector: 1, view: &view, slots: &slots, count: 1 };
        put(&Question::PeerWrite { room: &vec![0xaa; 70_000], table });
    }
}
