//! Rows of tables: walked, and those that are missing counted.

use crate::expert::missing::{values, Counters};
use crate::expert::walk::{Answer, Walk};
use crate::expert::walled;
use crate::measure::Work;
use mrt_oracle::exports;

/// What is told of a record, in one number.
#[inline(always)]
fn said(start: u64, [told, missing, repeat]: [u64; 3]) -> u64 {
    start ^ missing << 20 ^ told << 60 ^ repeat << 61
}

/// A walk over a stream that has records alone, each of them counted. The crate counts none.
pub fn count<'a>(name: &str, stream: &'a [u8]) -> Work<'a> {
    Work {
        name: name.to_string(),
        by_crate: None,
        expert: Box::new(move || expert(stream)),
        walled: Some(Box::new(move || walled(stream))),
        ours: Box::new(move || ours(stream)),
    }
}

/// How many records are asked for by one call.
const ROWS: usize = 16;

/// Records by the call that hands out many, each counted by a call of its own, up to what is no record: the end.
#[inline(always)]
fn by_calls(
    stream: &[u8],
    records: impl Fn(&[u8], &mut [u64; 2], &mut [[u64; 10]]) -> usize,
    missing: impl Fn(&[u8], u16, u16, &mut [u64; 4], &mut [u64; 3]),
) -> u64 {
    let (mut walk, mut rows, mut counters, mut out, mut sum) = ([0; 2], [[0; 10]; ROWS], [0; 4], [0; 3], 0u64);
    loop {
        let count = records(stream, &mut walk, &mut rows);
        for &[_, start, _, kind, subtype, _, _, _, body, end] in &rows[..count] {
            let body = &stream[body as usize..end as usize];
            missing(body, kind as u16, subtype as u16, &mut counters, &mut out);
            sum = sum.wrapping_add(said(start, out));
        }
        if count < ROWS {
            return sum.wrapping_add(walk[0]);
        }
    }
}

fn ours(stream: &[u8]) -> u64 {
    let records = |stream: &[u8], walk: &mut _, rows: &mut [_]| exports::records(stream, walk, rows).count as usize;
    by_calls(stream, records, |body, kind, subtype, counters, out| {
        exports::missing(body, kind, subtype, counters, out);
    })
}

/// The expert's calls behind the same wall.
fn walled(stream: &[u8]) -> u64 {
    by_calls(stream, walled::records, walled::missing)
}

fn expert(stream: &[u8]) -> u64 {
    let mut walk = Walk::new(stream, 0, 1);
    let (mut counters, mut sum) = (Counters::default(), 0u64);
    loop {
        match walk.next() {
            Answer::Record { start, record } => {
                let body = &stream[record.body..record.end];
                let told = counters.count(record.header.kind, record.header.subtype, body);
                sum = sum.wrapping_add(said(start as u64, values(told)));
            }
            _ => return sum.wrapping_add(walk.place()[0]),
        }
    }
}
