//! RIB bodies: every subtype and number of prefix bits cut at every octet, and bodies begun and added to.

use super::Put;
use crate::answers::NewEntry;
use crate::make;
use crate::question::Question;
use crate::random::Random;
use crate::subject::NewHead;

pub fn run(put: Put, random: &mut Random) {
    for subtype in 0..=13 {
        for bits in 0..=130 {
            short_body(put, subtype, bits);
        }
        for bits in 0..=255 {
            begin(put, subtype, bits);
        }
    }
    for _ in 0..20_000 {
        random_body(put, random);
        grown_body(put, random);
    }
    full_bodies(put);
}

fn short_body(put: Put, subtype: u16, bits: u8) {
    let mut body = make::rib_head(0x0102_0304, bits, 0xff, 2);
    body.extend(make::rib_entry(subtype, 1, &[64, 1, 1, 0]));
    body.extend(make::rib_entry(subtype, 2, &[]));
    body.push(0);
    for length in 0..=body.len() {
        let body = &body[..length];
        put(&Question::RibRead { subtype, body });
        for index in 0..3 {
            put(&Question::RibEntry { subtype, body, timestamp: 0x4800_0000, index });
        }
    }
}

fn begin(put: Put, subtype: u16, bits: u8) {
    let needed = 7 + usize::from(bits).div_ceil(8);
    for prefix in [[0; 16], [0xff; 16], [0x5a; 16]] {
        for room in [0, needed - 1, needed, needed + 1] {
            let head = NewHead { subtype, sequence: u32::MAX - 1, bits, prefix };
            put(&Question::RibBegin { room: &vec![0xaa; room], head });
        }
    }
}

/// A body with more or fewer entries than it declares, and the times on both sides of the record's.
fn random_body(put: Put, random: &mut Random) {
    let subtype = random.pick(&make::RIBS);
    let entries = random.below(5);
    let declared = random.pick(&[entries, entries + 1, entries.saturating_sub(1), 65_535]) as u16;
    let mut body = make::rib_head(random.number() as u32, random.below(34) as u8, random.octet(), declared);
    for index in 0..entries {
        let length = random.below(9);
        body.extend(make::rib_entry(subtype, index as u16, &random.octets(length)));
    }
    if random.once_in(2) && !body.is_empty() {
        let at = random.below(body.len());
        body[at] = random.octet();
    }
    if random.once_in(2) {
        body.truncate(random.below(body.len() + 1));
    }
    let body = &body[..];
    put(&Question::RibRead { subtype, body });
    for index in [0, 1, random.below(6), usize::MAX] {
        let timestamp = random.pick(&[0, 0x4700_0000, 0x46ff_ffff, u32::MAX]);
        put(&Question::RibEntry { subtype, body, timestamp, index });
    }
}

/// Adds an entry to a body that may be whole, torn, or followed by octets that are no part of it.
fn grown_body(put: Put, random: &mut Random) {
    let subtype = if random.once_in(8) { random.below(14) as u16 } else { random.pick(&make::RIBS) };
    let entries = random.below(4);
    let mut buffer = make::rib_head(5, random.pick(&[0, 8, 16, 32]), 10, entries as u16);
    for index in 0..entries {
        buffer.extend(make::rib_entry(subtype, index as u16, &[1, 2, 3]));
    }
    let length = match random.below(6) {
        0 => random.below(buffer.len() + 3),
        1 => buffer.len() + 1,
        _ => buffer.len(),
    };
    let room = random.below(40);
    buffer.extend(vec![0xaa; room]);
    let count = random.below(20);
    let attributes = random.octets(count);
    let path = if random.once_in(3) { random.number() as u32 } else { 0 };
    let entry = NewEntry { peer_index: 3, originated: random.number() as u32, path, attributes: &attributes };
    put(&Question::RibAdd { buffer: &buffer, length, subtype, entry });
}

/// Around 65,535 entries and attributes of 65,535 octets.
fn full_bodies(put: Put) {
    for subtype in [2, 10] {
        for count in [65_534, 65_535] {
            let mut buffer = make::rib_head(5, 8, 10, count);
            buffer.extend(make::rib_entry(subtype, 1, &[]).repeat(usize::from(count)));
            let length = buffer.len();
            buffer.extend([0xaa; 40]);
            let entry = NewEntry { peer_index: 1, originated: 2, path: 0, attributes: &[9; 5] };
            put(&Question::RibAdd { buffer: &buffer, length, subtype, entry });
            put(&Question::RibRead { subtype, body: &buffer[..length] });
            put(&Question::RibEntry { subtype, body: &buffer[..length], timestamp: 0, index: 65_534 });
        }
        for length in [65_534, 65_535, 65_536] {
            let mut buffer = make::rib_head(5, 8, 10, 0);
            let head = buffer.len();
            buffer.extend(vec![0xaa; 65_560]);
            let entry = NewEntry { peer_index: 1, originated: 2, path: 0, attributes: &vec![7; length] };
            put(&Question::RibAdd { buffer: &buffer, length: head, subtype, entry });
        }
    }
}
