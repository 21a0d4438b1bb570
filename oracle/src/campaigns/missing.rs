//! Rows counted over whole streams: each record that a walk hands out, with the counters as the records before it have left them.
//! And records by themselves, with any counters.

use super::{Put, ASKED};
use crate::answers::{Counters, Event};
use crate::damage;
use crate::make;
use crate::question::Question;
use crate::random::Random;
use crate::reading;
use crate::subject::{Reading, Subject};

pub fn run(put: Put, random: &mut Random) {
    for _ in 0..40_000 {
        let mut stream = tables(random);
        if random.once_in(2) {
            damage::once(random, &mut stream);
        }
        each_record(put, &stream, random.pick(&ASKED));
        any_record(put, random);
    }
}

pub fn each_record(put: Put, stream: &[u8], asked: u8) {
    let mut counters = Counters::default();
    for event in Reading.walk(stream, 1 << 20, asked).unwrap_or_default() {
        if let Event::Record { start, kind, subtype, .. } = event {
            let body = reading::body(stream, start);
            put(&Question::Missing { counters, kind, subtype, body });
            counters = reading::count_missing(counters, kind, subtype, body).counters;
        }
    }
}

/// Rows of both types, peer tables and other records, good and bad.
fn tables(random: &mut Random) -> Vec<u8> {
    let mut numbers = [random.pick(&[0, 0xfffd]), random.pick(&[0, u32::MAX - 2])];
    let mut stream = Vec::new();
    for _ in 0..random.below(16) {
        let record = match random.below(16) {
            0 => make::record(13, 1, &make::peer_table(b"", 0, &[])),
            1 => make::good_record(random),
            2 => make::bad_record(random),
            place => row(random, [12, 13][place % 2], &mut numbers[place % 2]),
        };
        stream.extend(record);
    }
    stream
}

/// Mostly the next number of its table. A prefix of 129 bits is refused by every subtype, and the row is then one that is missing.
fn row(random: &mut Random, kind: u16, number: &mut u32) -> Vec<u8> {
    *number = number.wrapping_add(random.pick(&[1, 1, 1, 1, 0, 2, 3, 0x8000, u32::MAX]));
    let bits = random.pick(&[0, 9, 24, 32, 129]);
    if kind == 13 {
        return make::record(13, random.pick(&make::RIBS), &make::rib_head(*number, bits, 10, 0));
    }
    let subtype = random.pick(&[1, 2]);
    let mut body = make::table_dump(subtype, bits, &[]);
    body[2..4].copy_from_slice(&(*number as u16).to_be_bytes());
    make::record(12, subtype, &body)
}

fn any_record(put: Put, random: &mut Random) {
    let (table_seen, dump_seen) = (random.once_in(2), random.once_in(2));
    let counters = Counters { table_seen, table: random.number() as u32, dump_seen, dump: random.number() as u16 };
    let (kind, any, length) = (random.number() as u16, random.number() as u16, random.below(9));
    let (kind, subtype) = (random.pick(&[12, 13, kind]), random.pick(&[1, 2, 5, 6, 8, 11, any]));
    put(&Question::Missing { counters, kind, subtype, body: &random.octets(length) });
}
