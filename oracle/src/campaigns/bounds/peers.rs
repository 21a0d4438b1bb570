//! Peer tables: bodies one octet short, exact and longer, the largest count and view name, one peer at each offset.

use super::super::Put;
use crate::answers::Peer;
use crate::make;
use crate::question::Question;
use crate::subject::NewTable;

/// Both families, both AS widths, and the same with all the bits that mean nothing.
const KINDS: [u8; 8] = [0, 1, 2, 3, 252, 253, 254, 255];
const SLOTS: [Peer; 4] = [Peer { kind: 0xee, id: 0xeeee_eeee, address: [0xee; 16], asn: 0xeeee_eeee }; 4];

pub fn run(put: Put) {
    for length in [0, 4, 6, 7, 8, 9] {
        read(put, &vec![0; length], &SLOTS);
    }
    for kind in KINDS {
        held(put, kind);
        written(put, kind);
    }
    names(put);
    full(put);
}

fn read(put: Put, body: &[u8], slots: &[Peer]) {
    put(&Question::PeerRead { body, slots });
}

/// As many peers as are declared, one octet fewer and one more, and one peer more than are held.
fn held(put: Put, kind: u8) {
    for count in [0, 1, 2, 3] {
        let peers =
            [make::peer(kind, 1, 0xffff_fffe), make::peer(kind ^ 1, 2, 65_535), make::peer(kind ^ 2, 3, 0)].concat();
        let size = [
            0,
            make::peer(kind, 0, 0).len(),
            make::peer(kind, 0, 0).len() + make::peer(kind ^ 1, 0, 0).len(),
            peers.len(),
        ];
        let body = [make::peer_table(b"", count, &peers[..size[usize::from(count)]]), vec![kind]].concat();
        for length in [body.len() - 2, body.len() - 1, body.len()] {
            read(put, &body[..length], &SLOTS);
        }
    }
}

/// A view name that ends with the body, or one octet before or after it.
fn names(put: Put) {
    for view in [&b"a"[..], b"name", &[0xff, 0xfe]] {
        let body = make::peer_table(view, 0, &[]);
        for length in [body.len() - 3, body.len() - 1, body.len()] {
            read(put, &body[..length], &SLOTS);
        }
        read(put, &make::peer_table(view, 1, &make::peer(3, 7, 70_000)), &SLOTS);
    }
    let body = make::peer_table(&vec![b'x'; 65_535], 0, &[]);
    for length in [body.len() - 1, body.len()] {
        read(put, &body[..length], &SLOTS);
    }
}

/// 65,535 peers, and the last one an octet short.
fn full(put: Put) {
    let body = make::peer_table(b"", 65_535, &make::peer(0, 1, 1).repeat(65_535));
    let slots = vec![Peer::default(); 65_535];
    read(put, &body, &slots);
    read(put, &body[..body.len() - 1], &slots);
}

/// One peer with every room around what it needs, and what stands after an address of four octets.
fn written(put: Put, kind: u8) {
    let needed = 8 + make::peer(kind, 0, 0).len();
    for room in [8, needed - 1, needed, needed + 1] {
        for asn in [0, 65_535, u32::MAX] {
            let slots = [Peer { kind, id: 0x0102_0304, address: [0x5a; 16], asn }];
            let table = NewTable { collector: 9, view: b"", slots: &slots, count: 1 };
            put(&Question::PeerWrite { room: &vec![0xaa; room], table });
        }
    }
}
