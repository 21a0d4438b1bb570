//! Headers: every type, with lengths and octets on both sides of each bound.

use super::Put;
use crate::answers::Header;
use crate::make;
use crate::question::Question;
use crate::random::Random;

pub fn run(put: Put, random: &mut Random) {
    for kind in 0..=u16::MAX {
        read_one_type(put, kind);
        write(put, &[0xaa; 20], Header { timestamp: 1, kind, subtype: 2, wire: 0, stored: 3, micros: 0 });
    }
    for kind in 0..60 {
        write_one_type(put, kind);
    }
    for _ in 0..100_000 {
        random_header(put, random);
        random_fields(put, random);
    }
}

fn read_one_type(put: Put, kind: u16) {
    for wire in [0, 3, 4, u32::MAX] {
        let mut stream = make::header(0x0102_0304, kind, 0xfffe, wire);
        stream.extend_from_slice(&[0xff, 0xfe, 0xfd, 0xfc, 0]);
        for length in [11, 12, 15, 16, 17] {
            put(&Question::HeaderRead { stream: &stream[..length], at: 0 });
        }
    }
}

fn write(put: Put, room: &[u8], header: Header) {
    put(&Question::HeaderWrite { room, header });
}

/// Every room up to one octet more than is needed, and every value that is the last or the first of its kind.
fn write_one_type(put: Put, kind: u16) {
    for stored in [0, 1, 4_294_967_290, 4_294_967_291, 4_294_967_292, u32::MAX] {
        for micros in [0, 1, 999_999, 1_000_000, u32::MAX] {
            for room in 0..=17 {
                let header = Header { timestamp: u32::MAX, kind, subtype: 0x0100, wire: 9, stored, micros };
                write(put, &[0xaa; 17][..room], header);
            }
        }
    }
}

fn random_header(put: Put, random: &mut Random) {
    let length = random.below(20);
    let mut stream = random.octets(length);
    if stream.len() > 5 && !random.once_in(4) {
        stream[4] = 0;
        stream[5] = random.pick(&[0, 5, 12, 13, 16, 17, 33, 49]);
    }
    let at = random.below(length + 3);
    put(&Question::HeaderRead { stream: &stream, at });
    put(&Question::Frame { stream: &stream, at });
    put(&Question::Judge { stream: &stream, at });
}

fn random_fields(put: Put, random: &mut Random) {
    let kind = random.pick(&[0, 5, 12, 13, 16, 17, 17, 32, 33, 48, 49]);
    let micros = if make::TIMED.contains(&kind) { random.number() as u32 } else { 0 };
    let (timestamp, stored) = (random.number() as u32, random.number() as u32);
    write(put, &[0xaa; 20], Header { timestamp, kind, subtype: random.number() as u16, wire: 0, stored, micros });
}
