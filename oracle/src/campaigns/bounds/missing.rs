//! Rows counted: both ends of both widths before and after, every subtype and the types around, and bodies around the four octets
//! that have a number. Both counters hold numbers throughout, so that a call that looks at the wrong one, or changes it, shows.

use super::super::Put;
use crate::answers::Counters;
use crate::question::Question;

/// The ends of a width, and both sides of its half.
const ENDS_16: [u16; 7] = [0, 1, 2, 0x7fff, 0x8000, 0xfffe, 0xffff];
const ENDS_32: [u32; 7] = [0, 1, 2, 0x7fff_ffff, 0x8000_0000, 0xffff_fffe, 0xffff_ffff];
/// Numbers of both types. Where a question has another of one type, that of the other is to have no part in the answer.
const OTHER: Counters = Counters { table_seen: true, table: 0x0102_0304, dump_seen: true, dump: 0x0506 };

pub fn run(put: Put) {
    for seen in [true, false] {
        tables(put, seen);
        dumps(put, seen);
    }
    for subtype in (0..=13).chain([65_535]) {
        lengths(put, 12, subtype);
        lengths(put, 13, subtype);
        other_types(put, subtype);
    }
}

/// Where no number was seen, the one that stands there is to have no part either.
fn tables(put: Put, table_seen: bool) {
    for table in ENDS_32 {
        let counters = Counters { table_seen, table, ..OTHER };
        for later in ENDS_32 {
            put(&Question::Missing { counters, kind: 13, subtype: 2, body: &later.to_be_bytes() });
        }
    }
}

/// The view before the number is all ones, so that a number with the view in it would be another.
fn dumps(put: Put, dump_seen: bool) {
    for dump in ENDS_16 {
        let counters = Counters { dump_seen, dump, ..OTHER };
        for later in ENDS_16 {
            let [high, low] = later.to_be_bytes();
            put(&Question::Missing { counters, kind: 12, subtype: 1, body: &[0xff, 0xff, high, low] });
        }
    }
}

/// With both numbers seen, and with neither.
fn lengths(put: Put, kind: u16, subtype: u16) {
    for length in 0..=5 {
        let body = &[0xf1, 0xf2, 0xf3, 0xf4, 0xf5][..length];
        put(&Question::Missing { counters: OTHER, kind, subtype, body });
        let unseen = Counters { table_seen: false, dump_seen: false, ..OTHER };
        put(&Question::Missing { counters: unseen, kind, subtype, body });
    }
}

fn other_types(put: Put, subtype: u16) {
    for kind in [5, 11, 14, 16, 17, 33, 65_535] {
        put(&Question::Missing { counters: OTHER, kind, subtype, body: &[0xf1, 0xf2, 0xf3, 0xf4, 0xf5] });
    }
}
