//! Records of type 12: walked, and each body read.

use crate::expert::walk::{Answer, Walk};
use crate::expert::{dump, walled};
use crate::measure::Work;
use mrt_oracle::answers::TableDump;
use mrt_oracle::exports;

/// What a body says, in one number.
#[inline(always)]
fn said([view, sequence, bits, status, originated, asn, start, end]: [u64; 8], addresses: [[u8; 16]; 2]) -> u64 {
    let [prefix, peer] = addresses.map(folded);
    let numbers = view << 48 ^ sequence << 32 ^ bits << 24 ^ status << 16 ^ asn;
    let places = originated << 20 ^ start << 40 ^ end << 45;
    numbers ^ places ^ prefix.rotate_left(7) ^ peer.rotate_left(29)
}

/// All octets of an address.
#[inline(always)]
fn folded(address: [u8; 16]) -> u64 {
    let whole = u128::from_ne_bytes(address);
    whole as u64 ^ ((whole >> 64) as u64).rotate_left(3)
}

/// A walk over a stream that has records of type 12 alone, each of them read. The crate's reader of these bodies is not at hand.
pub fn read<'a>(name: &str, stream: &'a [u8]) -> Work<'a> {
    Work {
        name: name.to_string(),
        by_crate: None,
        expert: Box::new(move || expert(stream)),
        walled: Some(Box::new(move || walled(stream))),
        ours: Box::new(move || ours(stream)),
    }
}

/// How many records are asked for by one call.
const ROWS: usize = 16;

/// Records by the call that hands out many, each body by a call of its own, up to what is no record: the end.
#[inline(always)]
fn by_calls(
    stream: &[u8],
    records: impl Fn(&[u8], &mut [u64; 2], &mut [[u64; 10]]) -> usize,
    read: impl Fn(&[u8], u16, &mut [[u8; 16]; 2]) -> [u64; 8],
) -> u64 {
    let (mut walk, mut rows, mut addresses, mut sum) = ([0; 2], [[0; 10]; ROWS], [[0; 16]; 2], 0u64);
    loop {
        let count = records(stream, &mut walk, &mut rows);
        for &[_, _, _, _, subtype, _, _, _, body, end] in &rows[..count] {
            let values = read(&stream[body as usize..end as usize], subtype as u16, &mut addresses);
            sum = sum.wrapping_add(body ^ said(values, addresses));
        }
        if count < ROWS {
            return sum.wrapping_add(walk[0]);
        }
    }
}

fn ours(stream: &[u8]) -> u64 {
    let records = |stream: &[u8], walk: &mut _, rows: &mut [_]| exports::records(stream, walk, rows).count as usize;
    by_calls(stream, records, |body, subtype, [prefix, peer]| exports::read_table_dump(body, subtype, prefix, peer).1)
}

/// The expert's calls behind the same wall.
fn walled(stream: &[u8]) -> u64 {
    by_calls(stream, walled::records, |body, subtype, addresses| {
        let mut out = [0; 8];
        walled::read_table_dump(body, subtype, &mut out, addresses);
        out
    })
}

fn expert(stream: &[u8]) -> u64 {
    let mut walk = Walk::new(stream, 0, 1);
    let mut sum = 0u64;
    loop {
        match walk.next() {
            Answer::Record { record, .. } => {
                let read = dump::read(record.header.subtype, &stream[record.body..record.end]);
                sum = sum.wrapping_add(record.body as u64 ^ read.map_or(0, |read| of_expert(&read)));
            }
            _ => return sum.wrapping_add(walk.place()[0]),
        }
    }
}

#[inline(always)]
fn of_expert(read: &TableDump) -> u64 {
    said(dump::values(read), [read.route.prefix, read.route.peer])
}
