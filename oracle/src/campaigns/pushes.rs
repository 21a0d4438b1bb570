//! RIB bodies given many entries by one call: random rows, most of them good, where a builder stands that mostly is one.

use super::Put;
use crate::answers::{Builder, NewRows};
use crate::make;
use crate::question::Question;
use crate::random::Random;

pub fn run(put: Put, random: &mut Random) {
    for _ in 0..60_000 {
        random_rows(put, random);
    }
    for _ in 0..20 {
        many_rows(put, random);
    }
}

fn random_rows(put: Put, random: &mut Random) {
    let subtype = if random.once_in(20) { random.below(14) as u16 } else { random.pick(&make::RIBS) };
    let nearly_full = 65_529 + random.below(7);
    let declared = random.pick(&[0, 1, 255, nearly_full]) as u16;
    let head = make::rib_head(random.number() as u32, random.below(33) as u8, random.octet(), declared);
    let (length, count_at, count) = (head.len(), head.len() - 2, declared.into());
    let builder = shaken(random, Builder { length, count_at, count });
    let (m, rows, room) = (random.below(70), random.below(9), random.below(400));
    let attributes = random.octets(m);
    let mut values: Vec<u64> = (0..rows).flat_map(|_| row(random, subtype, m)).collect();
    if random.once_in(40) {
        values.truncate(random.below(values.len() + 1));
    }
    let buffer = [head, vec![0xaa; room]].concat();
    let rows = NewRows { values: &values, attributes: &attributes };
    put(&Question::RibPushRows { buffer: &buffer, subtype, builder, rows });
}

/// Once in a while a builder of which one number is another.
fn shaken(random: &mut Random, builder: Builder) -> Builder {
    let Builder { length, count_at, count } = builder;
    match random.below(80) {
        0 => Builder { length: random.below(length + 500), ..builder },
        1 => Builder { count_at: random.pick(&[count_at + 1, count_at - 1, 0, usize::MAX]), ..builder },
        2 => Builder { count: random.pick(&[count + 1, count.wrapping_sub(1), 65_535, 65_536]), ..builder },
        _ => builder,
    }
}

/// A row whose attributes are a part of m octets. Once in a while one value is any number.
fn row(random: &mut Random, subtype: u16, m: usize) -> [u64; 5] {
    let start = random.below(m + 1);
    let end = start + random.below(m + 1 - start);
    let path = if subtype > 7 || random.once_in(60) { random.number() as u32 } else { 0 };
    let (peer, originated) = (random.number() as u16, random.number() as u32);
    let mut row = [peer.into(), originated.into(), path.into(), start as u64, end as u64];
    if random.once_in(20) {
        let value = random.pick(&[65_535, 65_536, 4_294_967_295, 4_294_967_296, m as u64, m as u64 + 1, u64::MAX]);
        row[random.below(5)] = value;
    }
    row
}

/// So many that a count may not hold them, after few entries or none.
fn many_rows(put: Put, random: &mut Random) {
    let subtype = random.pick(&make::RIBS);
    let declared = random.pick(&[0, 1, 60_000]);
    let buffer = [make::rib_head(1, 8, 10, declared), vec![0xaa; 80 * 70_000]].concat();
    let attributes = random.octets(60);
    let rows = random.pick(&[5_535, 5_536, 65_534, 65_535, 65_536]);
    let good = |random: &mut Random| {
        let end = random.below(61) as u64;
        let path = if subtype > 7 { random.number() as u32 } else { 0 };
        [random.number() & 0xffff, random.number() >> 32, path.into(), random.below(end as usize + 1) as u64, end]
    };
    let values: Vec<u64> = (0..rows).flat_map(|_| good(random)).collect();
    let builder = Builder { length: 8, count_at: 6, count: declared.into() };
    let rows = NewRows { values: &values, attributes: &attributes };
    put(&Question::RibPushRows { buffer: &buffer, subtype, builder, rows });
}
