//! RIB bodies: every subtype, prefix bits around each bound, bodies cut around each size, the largest counts, and the
//! refusals of the writers in their order.

use super::super::Put;
use crate::answers::{Builder, NewEntry, NewRows};
use crate::make;
use crate::question::Question;
use crate::subject::NewHead;

pub fn run(put: Put) {
    for subtype in 0..=13 {
        for bits in [0, 32, 33, 128, 129] {
            cut(put, subtype, bits);
        }
    }
    for subtype in [2, 4, 11] {
        for bits in [1, 7, 8, 9, 31, 127, 255] {
            whole(put, subtype, &make::rib_head(1, bits, 0xff, 0));
        }
    }
    after_the_last(put);
    steps(put);
    ages(put);
    for subtype in [0, 1, 2, 3, 5, 6, 9, 10, 12] {
        begins(put, subtype);
        adds(put, subtype);
        pushes(put, subtype);
        row_lengths(put, subtype);
        rows_that_stop(put, subtype);
    }
    rows_of_a_full_body(put);
    broken(put);
    full(put);
    long_attributes(put);
}

fn whole(put: Put, subtype: u16, body: &[u8]) {
    put(&Question::RibRead { subtype, body });
}

fn entries(put: Put, subtype: u16, body: &[u8]) {
    for index in [0, 1, 2, usize::MAX] {
        put(&Question::RibEntry { subtype, body, timestamp: 0x4800_0000, index });
    }
}

/// Two entries declared: the head one octet short and exact, the second entry cut in its fixed part and in its attributes,
/// exact, and one octet more. A subtype that is not carried comes before an unreadable head, and that before an index.
fn cut(put: Put, subtype: u16, bits: u8) {
    let head = make::rib_head(0x0102_0304, bits, 0xff, 2);
    let first = make::rib_entry(subtype, 1, &[64, 1, 1, 0]);
    let body = [&head[..], &first, &make::rib_entry(subtype, 0xfffe, &[7]), &[0]].concat();
    let n = body.len();
    for length in [0, 4, 5, head.len() - 1, head.len(), n - 3, n - 2, n - 1, n] {
        whole(put, subtype, &body[..length]);
    }
    if bits == 0 || bits == 33 {
        for length in [0, head.len() - 1, head.len() + first.len(), n - 2, n - 1] {
            entries(put, subtype, &body[..length]);
        }
    }
}

/// What reads as an entry after the declared ones is none.
fn after_the_last(put: Put) {
    for subtype in make::RIBS {
        let body = [make::rib_head(1, 8, 10, 1), make::rib_entry(subtype, 1, &[5]).repeat(2)].concat();
        whole(put, subtype, &body);
        entries(put, subtype, &body);
    }
}

/// A cursor at the first entry, in it, at and beyond the end of a body: 8 comes before a subtype that is not carried.
fn steps(put: Put) {
    for subtype in [0, 1, 2, 5, 6, 9, 12] {
        let body = [make::rib_head(1, 8, 10, 1), make::rib_entry(subtype, 1, &[5])].concat();
        for body in [&body[..], &body[..body.len() - 1], &body[..7], &[]] {
            let n = body.len();
            for at in [0, 8, 9, n, n + 1, usize::MAX - 11, usize::MAX] {
                for left in [0, 1, u16::MAX] {
                    put(&Question::RibNext { subtype, body, at, left });
                }
            }
        }
    }
}

/// Times on both sides of the record's, and both ends.
fn ages(put: Put) {
    for timestamp in [0, 1, 0x46ff_ffff, 0x4700_0000, 0x4700_0001, u32::MAX] {
        for originated in [0u32, 1, 0x4700_0000, u32::MAX] {
            let mut body = make::rib_head(1, 0, 0, 1);
            body.extend(make::rib_entry(2, 1, &[]));
            let at = body.len() - 6;
            body[at..at + 4].copy_from_slice(&originated.to_be_bytes());
            put(&Question::RibEntry { subtype: 2, body: &body, timestamp, index: 0 });
        }
    }
}

/// A subtype that is not carried comes before prefix bits, and those before the room.
fn begins(put: Put, subtype: u16) {
    for bits in [0, 1, 8, 9, 32, 33, 128, 129, 255] {
        let needed = 7 + usize::from(bits).div_ceil(8);
        for room in [0, needed - 1, needed, needed + 1] {
            let prefix = if bits % 2 == 0 { [0x5a; 16] } else { [0xff; 16] };
            let head = NewHead { subtype, sequence: u32::MAX - 1, bits, prefix };
            put(&Question::RibBegin { room: &vec![0xaa; room], head });
        }
    }
}

fn add(put: Put, buffer: &[u8], length: usize, subtype: u16, path: u32, attributes: &[u8]) {
    let entry = NewEntry { peer_index: 0xfffe, originated: 0x0102_0304, path, attributes };
    put(&Question::RibAdd { buffer, length, subtype, entry });
}

/// To a body of one entry: rooms around one and two entries more, and a length beyond the buffer, which comes first.
fn adds(put: Put, subtype: u16) {
    let body = [make::rib_head(5, 9, 0x80, 1), make::rib_entry(subtype, 1, &[1, 2, 3])].concat();
    let n = body.len();
    let size = make::rib_entry(subtype, 1, &[1, 2]).len();
    for room in [0, size - 1, size, size + 1, 2 * size - 1, 2 * size, 2 * size + 1] {
        let buffer = [&body[..], &vec![0xaa; room]].concat();
        for path in [0, 1, u32::MAX] {
            add(put, &buffer, n, subtype, path, &[8, 9]);
        }
    }
    for length in [n + 1, usize::MAX] {
        add(put, &body, length, subtype, 1, &[8, 9]);
        add(put, &body[..n - 1], length, subtype, 0, &[]);
    }
}

fn push(put: Put, buffer: &[u8], subtype: u16, builder: Builder, path: u32, attributes: &[u8]) {
    let entry = NewEntry { peer_index: 0xfffe, originated: 0x0102_0304, path, attributes };
    put(&Question::RibPush { buffer, subtype, builder, entry });
}

/// Builders that are a body's, and some that are not: each number one more and one less, a head that cannot be read, a count in
/// the head. The entries are not looked at, so a length inside an entry is taken.
fn pushes(put: Put, subtype: u16) {
    let body = [make::rib_head(5, 9, 0x80, 1), make::rib_entry(subtype, 1, &[1, 2, 3])].concat();
    let (n, size) = (body.len(), make::rib_entry(subtype, 1, &[1, 2]).len());
    for room in [0, size - 1, size, size + 1] {
        let buffer = [&body[..], &vec![0xaa; room]].concat();
        for length in [0, 8, 9, n - 1, n, n + 1, n + room + 1, usize::MAX] {
            for (count_at, count) in
                [(7, 1), (6, 1), (8, 1), (2, 0), (7, 0), (7, 2), (7, 65_536), (usize::MAX, 1), (7, u64::MAX)]
            {
                push(put, &buffer, subtype, Builder { length, count_at, count }, 0, &[8, 9]);
            }
            push(put, &buffer, subtype, Builder { length, count_at: 7, count: 1 }, 1, &[8, 9]);
        }
    }
    let mut wide = [&body[..], &[0xaa; 40]].concat();
    wide[4] = 129;
    push(put, &wide, subtype, Builder { length: n, count_at: 22, count: 0 }, 0, &[]);
    // no head at all: the case of ten zeros
    push(put, &[0; 10], subtype, Builder { length: 2, count_at: 0, count: 0 }, 0, &[]);
    let mut full = [make::rib_head(5, 0, 0, 65_535), vec![0xaa; 40]].concat();
    full[5..7].copy_from_slice(&[255, 255]);
    push(put, &full, subtype, Builder { length: 7, count_at: 5, count: 65_535 }, 0, &[]);
}

/// Two rows that go in where there is room and the subtype has no path number.
const TWO_ROWS: [u64; 10] = [0xfffe, 0x0102_0304, 0, 0, 2, 1, 2, 0, 2, 3];

fn push_rows(put: Put, buffer: &[u8], subtype: u16, builder: Builder, values: &[u64]) {
    put(&Question::RibPushRows { buffer, subtype, builder, rows: NewRows { values, attributes: &[7, 8, 9] } });
}

/// Values that are no whole number of rows, beside builders that are none: 8 comes before a subtype that is not carried, and
/// that before the builder.
fn row_lengths(put: Put, subtype: u16) {
    let body = [make::rib_head(5, 9, 0x80, 1), make::rib_entry(subtype, 1, &[1, 2, 3])].concat();
    let (n, size) = (body.len(), make::rib_entry(subtype, 1, &[1, 2]).len() + make::rib_entry(subtype, 1, &[1]).len());
    for room in [0, size - 1, size, size + 1] {
        let buffer = [&body[..], &vec![0xaa; room]].concat();
        for (length, count_at, count) in [
            (n, 7, 1),
            (n, 6, 1),
            (n, 7, 0),
            (n, 7, 65_536),
            (n + room + 1, 7, 1),
            (8, 7, 1),
            (9, 7, 1),
            (n, usize::MAX, 1),
        ] {
            for values in [0, 1, 4, 5, 6, 9, 10] {
                push_rows(put, &buffer, subtype, Builder { length, count_at, count }, &TWO_ROWS[..values]);
            }
        }
    }
    push_rows(put, &[], subtype, Builder::default(), &[]);
    push_rows(put, &[], subtype, Builder::default(), &[0]);
}

/// A row with one value on each side of its bound, between rows that go in.
fn rows_that_stop(put: Put, subtype: u16) {
    let buffer = [make::rib_head(5, 9, 0x80, 1), vec![0xaa; 90]].concat();
    let builder = Builder { length: 9, count_at: 7, count: 1 };
    let bounds: [(usize, &[u64]); 5] = [
        (0, &[65_535, 65_536]),
        (1, &[4_294_967_295, 4_294_967_296]),
        (2, &[1, 4_294_967_295, 4_294_967_296]),
        (3, &[0, 1, 2, 3, 4]),
        (4, &[0, 2, 3, 4]),
    ];
    for (place, values) in bounds {
        for &value in values.iter().chain(&[u64::MAX]) {
            let mut rows = [&TWO_ROWS[..], &[3, 4, 0, 1, 2], &TWO_ROWS[..5]].concat();
            rows[10 + place] = value;
            push_rows(put, &buffer, subtype, builder, &rows);
            push_rows(put, &buffer, subtype, builder, &rows[10..15]);
        }
    }
}

/// The 65,535th entry is the last that fits, and attributes of 65,535 octets do.
fn rows_of_a_full_body(put: Put) {
    for (subtype, count) in [(2, 65_533), (2, 65_534), (2, 65_535), (11, 65_533), (11, 65_535)] {
        let buffer = [make::rib_head(5, 0, 0, count), vec![0xaa; 90]].concat();
        let builder = Builder { length: 7, count_at: 5, count: count.into() };
        push_rows(put, &buffer, subtype, builder, &[&TWO_ROWS[..], &TWO_ROWS].concat());
    }
    let (attributes, builder) = (vec![7; 65_537], Builder { length: 7, count_at: 5, count: 0 });
    for length in [65_534, 65_535, 65_536] {
        let values = [1, 2, 0, 1, 1 + length, 1, 2, 0, 0, 0];
        for room in [0, 8 + length as usize - 1, 8 + length as usize, 16 + length as usize] {
            let buffer = [make::rib_head(5, 0, 0, 0), vec![0xaa; room]].concat();
            let rows = NewRows { values: &values, attributes: &attributes };
            put(&Question::RibPushRows { buffer: &buffer, subtype: 2, builder, rows });
        }
    }
}

/// A body that is not whole comes before a value that does not fit, and before the room.
fn broken(put: Put) {
    for subtype in [1, 2, 10, 12] {
        let body = [make::rib_head(5, 8, 10, 2), make::rib_entry(subtype, 1, &[]).repeat(2)].concat();
        let (n, size) = (body.len(), make::rib_entry(subtype, 1, &[]).len());
        let mut wide = body.clone();
        wide[4] = 129;
        for room in [0, 40] {
            let buffer = [&body[..], &vec![0xaa; room]].concat();
            for length in [0, 7, 8, n - size, n - 1, n, n + room.min(1)] {
                add(put, &buffer, length, subtype, 1, &[]);
                add(put, &buffer, length, subtype, 0, &[]);
            }
            add(put, &[&wide[..], &vec![0xaa; room]].concat(), n, subtype, 1, &[]);
        }
    }
}

/// The 65,535th entry is the last that fits, with room or without.
fn full(put: Put) {
    for count in [65_534, 65_535] {
        let body = [make::rib_head(5, 8, 10, count), make::rib_entry(2, 1, &[]).repeat(usize::from(count))].concat();
        let n = body.len();
        for room in [0, 7, 8] {
            add(put, &[&body[..], &vec![0xaa; room]].concat(), n, 2, 0, &[]);
        }
        whole(put, 2, &body);
        whole(put, 2, &body[..n - 1]);
        for index in [65_533, 65_534, 65_535] {
            put(&Question::RibEntry { subtype: 2, body: &body, timestamp: 0, index });
        }
    }
}

/// Attributes of 65,535 octets fit their length, with room or without; one more does not.
fn long_attributes(put: Put) {
    let body = make::rib_head(5, 8, 10, 0);
    for length in [65_534, 65_535, 65_536] {
        for room in [0, 8 + length - 1, 8 + length] {
            add(put, &[&body[..], &vec![0xaa; room]].concat(), body.len(), 2, 0, &vec![7; length]);
        }
    }
    for length in [65_534, 65_535] {
        let entry = make::rib_entry(4, 1, &vec![7; length]);
        let body = [make::rib_head(1, 0, 0, 1), entry].concat();
        whole(put, 4, &body);
        whole(put, 4, &body[..body.len() - 1]);
    }
}
