//! TABLE_DUMP bodies: lengths and prefix bits around each bound, the subtypes around the two that are carried, rooms and values
//! of the writer, and its refusals in their order.

use super::super::Put;
use crate::answers::{DumpedRoute, NewDump};
use crate::make;
use crate::question::Question;

pub fn run(put: Put) {
    for subtype in [0, 1, 2, 3, 65_535] {
        lengths(put, subtype);
        attribute_lengths(put, subtype);
        writes(put, subtype);
    }
    for subtype in [1, 2, 3] {
        prefixes(put, subtype);
        written_bits(put, subtype);
        long_attributes(put, subtype);
    }
}

fn read(put: Put, subtype: u16, body: &[u8]) {
    put(&Question::TableDumpRead { subtype, body });
    put(&Question::Judge { stream: &make::record(12, subtype, body), at: 0 });
}

/// Zeros around the shortest body of each family, and a body that is whole by either subtype.
fn lengths(put: Put, subtype: u16) {
    for length in [0, 1, 4, 20, 21, 22, 23, 44, 45, 46, 47] {
        read(put, subtype, &vec![0; length]);
    }
    let mut both = make::table_dump(2, 0, &[64, 1, 1]);
    // the prefix bits and the attribute length where subtype 1 has them
    (both[8], both[21]) = (32, 46 + 3 - 22);
    read(put, subtype, &both);
}

/// One octet fewer, as many, and one more than the attribute length says, by the octets and by the length.
fn attribute_lengths(put: Put, subtype: u16) {
    for attributes in [&[][..], &[64, 1, 1]] {
        let body = make::table_dump(subtype, 24, attributes);
        let n = body.len();
        read(put, subtype, &body[..n - 1]);
        read(put, subtype, &[&body[..], &[0]].concat());
        for said in 0..=attributes.len() + 1 {
            let mut other = body.clone();
            other[n - attributes.len() - 1] = said as u8;
            read(put, subtype, &other);
        }
    }
}

/// Bits after the prefix are set, and stay. With too many bits a wrong length is refused by the same number.
fn prefixes(put: Put, subtype: u16) {
    for bits in [0, 1, 24, 31, 32, 33, 64, 127, 128, 129, 255] {
        let body = make::table_dump(subtype, bits, &[7]);
        read(put, subtype, &body);
        read(put, subtype, &body[..body.len() - 1]);
    }
}

fn write(put: Put, room: usize, subtype: u16, bits: u8, asn: u32, attributes: &[u8]) {
    let route = DumpedRoute {
        view: 0xfffe,
        sequence: 0x0102,
        prefix: std::array::from_fn(|place| 0xff - place as u8),
        bits,
        status: 0x80,
        originated: 0x0304_0506,
        peer: std::array::from_fn(|place| 0x41 + place as u8),
        asn,
    };
    let dump = NewDump { subtype, route, attributes };
    put(&Question::TableDumpWrite { room: &vec![0xaa; room], dump });
}

/// A subtype that is not carried comes before a value that does not fit, and that before the room.
fn writes(put: Put, subtype: u16) {
    for attributes in [&[][..], &[64, 1, 1]] {
        let needed = make::table_dump(subtype, 0, attributes).len();
        for room in [0, needed - 1, needed, needed + 1] {
            for asn in [0, 65_535, 65_536, u32::MAX] {
                write(put, room, subtype, 32, asn, attributes);
                write(put, room, subtype, 255, asn, attributes);
            }
        }
    }
}

fn written_bits(put: Put, subtype: u16) {
    let needed = make::table_dump(subtype, 0, &[9]).len();
    for bits in [0, 1, 31, 32, 33, 127, 128, 129, 255] {
        for room in [needed - 1, needed, needed + 2] {
            write(put, room, subtype, bits, 1, &[9]);
        }
    }
}

/// Attributes of 65,535 octets fit their length, with room or without; one more does not.
fn long_attributes(put: Put, subtype: u16) {
    for length in [65_534, 65_535, 65_536] {
        let attributes = vec![7; length];
        let needed = make::table_dump(subtype, 0, &attributes).len();
        for room in [0, needed - 1, needed, needed + 1] {
            write(put, room, subtype, 32, 65_535, &attributes);
        }
        let body = make::table_dump(subtype, 32, &attributes);
        read(put, subtype, &body);
        read(put, subtype, &body[..body.len() - 1]);
    }
}
