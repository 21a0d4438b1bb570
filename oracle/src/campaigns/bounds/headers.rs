//! Headers: lengths of stream and of body around each bound, offsets up to and beyond the end, every type, rooms.

use super::super::Put;
use crate::answers::Header;
use crate::make;
use crate::question::Question;

const ROOM: [u8; 17] = [0xaa; 17];

pub fn run(put: Put) {
    for kind in [0, 13, 14, 16, 17, 18, 32, 33, 48, 49, 65_535] {
        for wire in [0, 3, 4, 5, u32::MAX] {
            short_streams(put, kind, wire);
        }
    }
    for kind in (0..=18).chain([31, 32, 33, 34, 47, 48, 49, 50, 255, 256, 65_535]) {
        let stream = [make::header(7, kind, 6, 4), vec![1, 2, 3, 4]].concat();
        read(put, &stream, 0);
        write(put, &ROOM, kind, 0, 0);
    }
    offsets(put);
    for kind in [0, 14, 16, 17, 32, 33, 48, 49] {
        writes(put, kind);
    }
}

fn read(put: Put, stream: &[u8], at: usize) {
    put(&Question::HeaderRead { stream, at });
    put(&Question::Frame { stream, at });
}

/// Under 12 octets comes before an unknown type, a short wire length before under 16, and that before a cut body.
fn short_streams(put: Put, kind: u16, wire: u32) {
    let stream = [make::header(0x0102_0304, kind, 0xfffe, wire), vec![0xff, 0xfe, 0xfd, 0xfc, 0, 0]].concat();
    for length in [0, 1, 11, 12, 15, 16, 17, 18] {
        read(put, &stream[..length], 0);
    }
}

/// An offset beyond the stream comes before all else; one at its end leaves no octets.
fn offsets(put: Put) {
    let stream = [make::record(16, 1, &[9]), make::record(17, 1, &[8, 7]), make::header(1, 14, 0, 0)].concat();
    let n = stream.len();
    for at in [0, 1, 13, 14, 31, n - 12, n - 11, n - 1, n, n + 1, usize::MAX - 11, usize::MAX] {
        read(put, &stream, at);
    }
    for at in [0, 1, usize::MAX] {
        read(put, &[], at);
    }
}

fn write(put: Put, room: &[u8], kind: u16, stored: u32, micros: u32) {
    let header = Header { timestamp: 0x0102_0304, kind, subtype: 0xfffe, wire: 9, stored, micros };
    put(&Question::HeaderWrite { room, header });
}

/// An unknown type comes before a value that does not fit, and that before the room.
fn writes(put: Put, kind: u16) {
    for stored in [0, 1, 4_294_967_290, 4_294_967_291, 4_294_967_292, u32::MAX] {
        for micros in [0, 1, 999_999, 1_000_000, u32::MAX] {
            for room in [0, 11, 12, 15, 16, 17] {
                let small = stored <= 1 || stored == 4_294_967_291 || room == 0 || room >= 16;
                if small && (micros <= 1 || room == 16) {
                    write(put, &ROOM[..room], kind, stored, micros);
                }
            }
        }
    }
}
