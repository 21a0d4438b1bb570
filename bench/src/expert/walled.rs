//! The same calls behind a wall like the library's: none is compiled into its caller, and each hands its values out in places
//! that the caller lends. What they lose against the calls without the wall, a library in C's manner loses.

use super::dump;
use super::missing::{values, Counters};
use super::record::{judge, Verdict};
use super::rib::{Builder, Entries};
use super::walk::{Answer, Walk};
use mrt_oracle::answers::NewEntry;

/// Records from the walk's position on, and how many.
#[inline(never)]
pub fn records(stream: &[u8], walk: &mut [u64; 2], rows: &mut [[u64; 10]]) -> usize {
    let mut at = walk[0] as usize;
    let mut count = 0;
    for row in rows {
        let Verdict::Fit(record) = judge(stream, at) else {
            break;
        };
        let h = record.header;
        let fields = [h.timestamp, u32::from(h.kind), u32::from(h.subtype), h.wire, h.stored, h.micros].map(u64::from);
        let [timestamp, kind, subtype, wire, stored, micros] = fields;
        let (body, end) = (record.body as u64, record.end as u64);
        *row = [1, at as u64, timestamp, kind, subtype, wire, stored, micros, body, end];
        (at, count) = (record.end, count + 1);
    }
    walk[0] = at as u64;
    count
}

/// One answer of the walk that is no record.
#[inline(never)]
pub fn next(stream: &[u8], place: &mut [u64; 2], window: usize, asked: u8, out: &mut [u64; 10]) {
    let mut walk = Walk::at(stream, place[0] as usize, place[1] == 1, window, asked);
    match walk.next() {
        Answer::Record { start, .. } => out[..2].copy_from_slice(&[1, start as u64]),
        Answer::Gap { start, end, refusal, evidence, confirmed } => {
            let numbers = [u64::from(refusal), u64::from(evidence), u64::from(confirmed)];
            out[..3].copy_from_slice(&[2, start as u64, end as u64]);
            out[3..6].copy_from_slice(&numbers);
        }
        Answer::End(at) => out[..2].copy_from_slice(&[3, at as u64]),
        Answer::Window { start, refusal } => {
            out[..4].copy_from_slice(&[4, start as u64, window as u64, u64::from(refusal)]);
        }
    }
    *place = walk.place();
}

/// Entries from the cursor on, and how many.
#[inline(never)]
pub fn rib_entries(body: &[u8], subtype: u16, cursor: &mut [u64; 2], rows: &mut [[u64; 5]]) -> usize {
    let Some(mut entries) = Entries::at(subtype, body, cursor[0] as usize, cursor[1] as u16) else {
        return 0;
    };
    let mut count = 0;
    for row in rows {
        let Some(entry) = entries.next() else {
            break;
        };
        let (start, length) = (entry.attributes_at as u64, entry.attributes_len as u64);
        *row = [u64::from(entry.peer_index), u64::from(entry.originated), u64::from(entry.path), start, start + length];
        count += 1;
    }
    *cursor = entries.cursor();
    count
}

/// Entries of rows where a builder stands, up to the first that does not go in, and how many. The count in the head is stored
/// once, after all of them, which is faster.
#[inline(never)]
pub fn push_entries(out: &mut [u8], subtype: u16, state: &mut [u64; 3], rows: &[[u64; 5]], attributes: &[u8]) -> usize {
    let Some(mut builder) = Builder::at(subtype, *state) else {
        return 0;
    };
    let mut count = 0;
    for row in rows {
        let Some(entry) = entry(row, attributes) else {
            break;
        };
        if builder.put(out, &entry).is_err() {
            break;
        }
        count += 1;
    }
    builder.store_count(out);
    *state = builder.state();
    count
}

/// The entry of a row, where its values fit.
#[inline(always)]
fn entry<'a>(&[peer, originated, path, start, end]: &[u64; 5], attributes: &'a [u8]) -> Option<NewEntry<'a>> {
    if peer >> 16 | originated >> 32 | path >> 32 != 0 {
        return None;
    }
    let attributes = attributes.get(start as usize..end as usize)?;
    Some(NewEntry { peer_index: peer as u16, originated: originated as u32, path: path as u32, attributes })
}

/// One more entry where a builder stands: 0, or the refusal.
#[inline(never)]
pub fn push_entry(out: &mut [u8], subtype: u16, state: &mut [u64; 3], entry: &NewEntry) -> u32 {
    let Some(mut builder) = Builder::at(subtype, *state) else {
        return 6;
    };
    match builder.push(out, entry) {
        Err(refusal) => u32::from(refusal),
        Ok(()) => {
            *state = builder.state();
            0
        }
    }
}

/// A TABLE_DUMP body: 0, or the refusal.
#[inline(never)]
pub fn read_table_dump(body: &[u8], subtype: u16, out: &mut [u64; 8], [prefix, peer]: &mut [[u8; 16]; 2]) -> u32 {
    match dump::read(subtype, body) {
        Err(refusal) => u32::from(refusal),
        Ok(read) => {
            (*out, *prefix, *peer) = (dump::values(&read), read.route.prefix, read.route.peer);
            0
        }
    }
}

/// A record counted.
#[inline(never)]
pub fn missing(body: &[u8], kind: u16, subtype: u16, places: &mut [u64; 4], out: &mut [u64; 3]) {
    let mut counters = Counters::at(*places);
    *out = values(counters.count(kind, subtype, body));
    *places = counters.places();
}
