//! What is written reads back as the same, and what refuses leaves all as it was.

use mrt_oracle::answers::{Answer, Builder, Header, NewEntry, NewRows, Peer, Rowed, Walk};
use mrt_oracle::reading;

#[test]
fn headers_read_back() {
    for (kind, wire, micros) in [(13, 5, 0), (17, 9, 1_000_000), (33, 9, 1), (48, 5, 0), (49, 9, u32::MAX)] {
        let header = Header { timestamp: 1, kind, subtype: 2, wire, stored: 5, micros };
        let mut out = [0xaa; 16];
        assert_eq!(reading::write_header(&mut out, &header).refusal, 0);
        assert_eq!(reading::read_header(&out, 0).value, header);
    }
}

#[test]
fn peers_read_back() {
    let mut slots = [Peer::default(); 4];
    let mut count = 0;
    for kind in [0, 1, 2, 3] {
        let peer = Peer { kind, id: 7, address: [kind + 1; 16], asn: 65_000 };
        assert_eq!(reading::add_peer(&mut slots, count, &peer).value, count);
        count += 1;
    }
    assert_eq!(slots[0].address, [1, 1, 1, 1, 0, 0, 0, 0, 0, 0, 0, 0, 0, 0, 0, 0]);
    let mut out = [0; 100];
    let size = reading::write_peers(&mut out, 9, b"view", &slots, count).value;
    assert_eq!(size, 8 + 4 + 11 + 23 + 13 + 25);
    let mut read = [Peer::default(); 4];
    let table = reading::read_peers(&out[..size], &mut read).value;
    assert_eq!((table.collector, table.count, &out[table.view_at..][..table.view_len]), (9, 4, &b"view"[..]));
    assert_eq!(read, slots);
}

#[test]
fn ribs_read_back() {
    let mut buffer = [0xaa; 60];
    let mut length = reading::begin_rib(&mut buffer, 8, 3, 9, &[0xff; 16]).value;
    assert_eq!(buffer[..length], [0, 0, 0, 3, 9, 0xff, 0x80, 0, 0]);
    for number in 0..2u8 {
        let entry = NewEntry { peer_index: 1, originated: 200, path: 5, attributes: &[number; 3] };
        length = reading::add_entry(&mut buffer, length, 8, &entry).value;
    }
    let entry = reading::read_entry(8, &buffer[..length], 100, 1).value;
    assert_eq!((entry.path, entry.age, buffer[entry.attributes_at]), (5, -100, 1));
    assert_eq!(reading::read_rib(8, &buffer[..length]).value.read, 2);
    let before = buffer;
    let entry = NewEntry { attributes: &[0; 60], ..NewEntry::default() };
    assert_eq!(reading::add_entry(&mut buffer, length, 8, &entry).refusal, 9);
    assert_eq!(buffer, before);
}

/// Two rows go in, and the third has a peer index that no entry has. There is room for all four.
#[test]
fn rows_go_in_up_to_the_first_that_is_refused() {
    let mut buffer = [0xaa; 60];
    let length = reading::begin_rib(&mut buffer, 8, 3, 0, &[0; 16]).value;
    let begun = Builder { length, count_at: 5, count: 0 };
    let values = [1, 2, 3, 1, 3, 65_535, 4_294_967_295, 4, 3, 3, 65_536, 2, 3, 0, 0, 1, 2, 3, 0, 0];
    let attributes = [7, 8, 9];
    let rows = |values| NewRows { values, attributes: &attributes };
    let Answer { refusal, value } = reading::push_rows(&mut buffer, 8, begun, &rows(&values));
    assert_eq!((refusal, value), (0, Rowed { rows: 2, builder: Builder { length: 33, count_at: 5, count: 2 } }));
    let first = [0, 1, 0, 0, 0, 2, 0, 0, 0, 3, 0, 2, 8, 9];
    let second = [255, 255, 255, 255, 255, 255, 0, 0, 0, 4, 0, 0];
    assert_eq!(buffer[..33], [&[0, 0, 0, 3, 0, 0, 2][..], &first, &second].concat());
    assert_eq!(buffer[33..], [0xaa; 27]);
    let before = buffer;
    for (subtype, builder, values, refusal) in [
        (8, value.builder, &values[..19], 8),
        (6, Builder { length: 61, ..value.builder }, &values[..], 8),
        (6, value.builder, &values[..], 6),
        (8, begun, &values[..], 7),
    ] {
        let answer = reading::push_rows(&mut buffer, subtype, builder, &rows(values));
        assert_eq!(answer, Answer { refusal, value: Rowed::default() });
        assert_eq!(buffer, before);
    }
    let none = reading::push_rows(&mut buffer[..46], 8, value.builder, &rows(&values[..5]));
    assert_eq!((none.refusal, none.value, buffer), (0, Rowed { rows: 0, builder: value.builder }, before));
}

#[test]
fn a_walk_beyond_the_stream_stays() {
    for finished in [false, true] {
        let mut walk = Walk { position: 3, finished };
        reading::step(&[0; 2], &mut walk, usize::MAX, 255);
        assert_eq!(walk, Walk { position: 3, finished });
    }
}
