//! TABLE_DUMP bodies: well-formed ones with random octets, then shaken around each bound, and fields to be written with
//! values and rooms on both sides of theirs.

use super::Put;
use crate::answers::{DumpedRoute, NewDump};
use crate::make;
use crate::question::Question;
use crate::random::Random;

pub fn run(put: Put, random: &mut Random) {
    for _ in 0..40_000 {
        random_body(put, random);
        random_fields(put, random);
    }
}

/// Mostly one of the two that are carried.
fn some_subtype(random: &mut Random) -> u16 {
    random.pick(&[1, 1, 1, 1, 2, 2, 2, 2, 0, 3, 12, 65_535])
}

fn some_bits(random: &mut Random) -> u8 {
    let any = random.octet();
    random.pick(&[0, 8, 24, 31, 32, 33, 64, 127, 128, 129, any])
}

fn random_body(put: Put, random: &mut Random) {
    let (subtype, bits, count) = (some_subtype(random), some_bits(random), random.below(9));
    let mut body = make::table_dump(subtype, bits, &random.octets(count));
    let fixed = body.len() - count;
    let bits_at = 4 + (fixed - 14) / 2;
    for at in (0..fixed - 2).filter(|&at| at != bits_at) {
        body[at] = random.octet();
    }
    match random.below(8) {
        0 => body.push(random.octet()),
        1 => body.truncate(random.below(body.len() + 1)),
        2 => body.truncate(body.len() - 1),
        3 => body[fixed - 1] = (count + random.below(3)).saturating_sub(1) as u8,
        4 => body[fixed - 2] = random.octet(),
        _ => {}
    }
    let subtype = if random.once_in(10) { some_subtype(random) } else { subtype };
    put(&Question::TableDumpRead { subtype, body: &body });
    put(&Question::Judge { stream: &make::record(12, subtype, &body), at: 0 });
}

fn random_fields(put: Put, random: &mut Random) {
    let (any, count) = (random.number() as u32, random.below(20));
    let attributes = random.octets(count);
    let mut sixteen = || std::array::from_fn(|_| random.octet());
    let (prefix, peer) = (sixteen(), sixteen());
    let route = DumpedRoute {
        view: random.number() as u16,
        sequence: random.number() as u16,
        prefix,
        bits: some_bits(random),
        status: random.octet(),
        originated: random.number() as u32,
        peer,
        asn: random.pick(&[0, 64_512, 65_000, 65_535, 65_536, u32::MAX, any]),
    };
    let (subtype, spare) = (some_subtype(random), random.below(4));
    let needed = make::table_dump(subtype, 0, &attributes).len();
    let any_room = random.below(80);
    let room = random.pick(&[needed + spare, needed + spare, needed - 1, any_room]);
    let dump = NewDump { subtype, route, attributes: &attributes };
    put(&Question::TableDumpWrite { room: &vec![0xaa; room], dump });
}
