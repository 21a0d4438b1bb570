//! One large RIB record: all its entries read, and the same body built.

use crate::expert::rib::{begin, Builder, Entries};
use crate::expert::walled;
use crate::measure::Work;
use bgpkit_part::models::{RibAfiEntries, TableDumpV2Type};
use bgpkit_part::parser::mrt::messages::table_dump_v2::rib_afi_entries::parse_rib_afi_entries;
use bgpkit_part::Bytes;
use mrt_oracle::answers::NewEntry;
use mrt_oracle::exports;
use mrt_oracle::random::Random;

/// IPv4 unicast.
const SUBTYPE: u16 = 2;
const SEQUENCE: u32 = 7;
const BITS: u8 = 24;
const PREFIX: [u8; 16] = [192, 0, 2, 0, 0, 0, 0, 0, 0, 0, 0, 0, 0, 0, 0, 0];
/// An entry's octets before its attributes.
const FIXED: usize = 8;

/// A body with so many entries, whose attributes have 20 to 119 octets.
pub struct Rib {
    body: Vec<u8>,
    by_crate: RibAfiEntries,
}

/// What an entry says, in one number.
#[inline(always)]
fn said(peer: u64, originated: u64, start: u64, length: u64) -> u64 {
    peer ^ originated << 8 ^ start << 24 ^ length << 50
}

impl Rib {
    pub fn new(entries: usize) -> Self {
        let mut random = Random::new(3);
        let attributes = random.octets(120);
        let mut body = vec![0; 10 + entries * (FIXED + 120)];
        let mut builder = begin(&mut body, SUBTYPE, SEQUENCE, BITS, &PREFIX).expect("the head fits");
        for number in 0..entries {
            let attributes = &attributes[..20 + random.below(100)];
            let entry = NewEntry { peer_index: number as u16, originated: random.number() as u32, path: 0, attributes };
            builder.push(&mut body, &entry).expect("the entry fits");
        }
        body.truncate(builder.len);
        let by_crate = parse(&Bytes::copy_from_slice(&body));
        Rib { body, by_crate }
    }

    /// Every entry, where its attributes stand and how long they are.
    pub fn read(&self, name: &str) -> Work<'_> {
        let octets = Bytes::copy_from_slice(&self.body);
        Work {
            name: name.to_string(),
            by_crate: Some(Box::new(move || read_by_crate(&octets))),
            expert: Box::new(move || read_by_expert(&self.body)),
            walled: Some(Box::new(move || read_walled(&self.body))),
            ours: Box::new(move || read_by_ours(&self.body)),
        }
    }

    /// The same by the call that is given an entry's number and passes over all before it.
    pub fn read_by_number(&self, name: &str) -> Work<'_> {
        let count = self.by_crate.rib_entries.len();
        Work {
            name: name.to_string(),
            by_crate: None,
            expert: Box::new(move || read_by_expert(&self.body)),
            walled: None,
            ours: Box::new(move || numbered_by_ours(&self.body, count)),
        }
    }

    fn entries(&self) -> Vec<NewEntry<'_>> {
        let entries = Entries::new(SUBTYPE, &self.body).expect("the head is readable");
        let new = entries.map(|entry| NewEntry {
            peer_index: entry.peer_index,
            originated: entry.originated,
            path: entry.path,
            attributes: &self.body[entry.attributes_at..][..entry.attributes_len],
        });
        new.collect()
    }

    /// The body from its entries, by calls of ours and by the expert's behind the wall. The crate's entries are held ready; only
    /// its writing is timed.
    fn built<'a>(
        &'a self,
        name: &str,
        by_ours: impl Fn(&mut [u8]) -> u64 + 'a,
        by_walled: impl Fn(&mut [u8]) -> u64 + 'a,
    ) -> Work<'a> {
        let [mut ours, mut theirs, mut walled] = [(); 3].map(|()| vec![0; self.body.len()]);
        let by_expert = self.entries();
        by_ours(&mut ours);
        assert_eq!(ours, self.body, "{name}: the octets of the proved calls");
        by_walled(&mut walled);
        assert_eq!(walled, self.body, "{name}: the octets of the expert's calls");
        assert_eq!(self.by_crate.encode().as_deref().ok(), Some(&self.body[..]), "{name}: the crate's octets");
        let octets = move || self.by_crate.encode().map_or(0, |octets| octets.len() as u64);
        Work {
            name: name.to_string(),
            by_crate: Some(Box::new(octets)),
            expert: Box::new(move || build_by_expert(&mut theirs, &by_expert)),
            walled: Some(Box::new(move || by_walled(&mut walled))),
            ours: Box::new(move || by_ours(&mut ours)),
        }
    }

    /// One call for each entry.
    pub fn build(&self, name: &str) -> Work<'_> {
        let [by_ours, by_walled] = [(); 2].map(|()| self.entries());
        self.built(name, move |out| build_by_ours(out, &by_ours), move |out| build_walled(out, &by_walled))
    }

    /// Calls for many entries, whose rows are made from the same entries between the calls.
    pub fn build_by_rows(&self, name: &str) -> Work<'_> {
        let [by_ours, by_walled] = [(); 2].map(|()| self.entries());
        let ours = move |out: &mut [u8]| by_chunks(begun(out), out, &by_ours, &self.body, push_by_ours);
        let walled = move |out: &mut [u8]| by_chunks(begun_by_expert(out), out, &by_walled, &self.body, push_walled);
        self.built(name, ours, walled)
    }

    /// One call for all entries, whose rows are held ready.
    pub fn build_by_ready_rows(&self, name: &str) -> Work<'_> {
        let [by_ours, by_walled] = [(); 2].map(|()| self.rows());
        let ours = move |out: &mut [u8]| at_once(begun(out), out, &by_ours, &self.body, push_by_ours);
        let walled = move |out: &mut [u8]| at_once(begun_by_expert(out), out, &by_walled, &self.body, push_walled);
        self.built(name, ours, walled)
    }

    fn rows(&self) -> Vec<[u64; 5]> {
        self.entries().iter().map(|entry| row(entry, &self.body)).collect()
    }

    /// The same by the call that passes over all earlier entries, which the crate has no form for.
    pub fn add(&self, name: &str) -> Work<'_> {
        let [mut ours, mut theirs] = [vec![0; self.body.len()], vec![0; self.body.len()]];
        let [by_ours, by_expert] = [self.entries(), self.entries()];
        Work {
            name: name.to_string(),
            by_crate: None,
            expert: Box::new(move || build_by_expert(&mut theirs, &by_expert)),
            walled: None,
            ours: Box::new(move || add_by_ours(&mut ours, &by_ours)),
        }
    }
}

fn parse(body: &Bytes) -> RibAfiEntries {
    parse_rib_afi_entries(&mut body.clone(), TableDumpV2Type::RibIpv4Unicast).expect("the head is readable")
}

/// How many entries are asked for by one call.
const ROWS: usize = 16;

#[inline(always)]
fn read_by_calls(body: &[u8], entries: impl Fn(&mut [u64; 2], &mut [[u64; 5]]) -> usize) -> u64 {
    let (_, mut cursor) = exports::rib_first(body, SUBTYPE);
    let (mut rows, mut sum) = ([[0; 5]; ROWS], 0u64);
    loop {
        let count = entries(&mut cursor, &mut rows);
        for &[peer, originated, _, start, end] in &rows[..count] {
            sum = sum.wrapping_add(said(peer, originated, start, end - start));
        }
        if count < ROWS {
            return sum;
        }
    }
}

fn read_by_ours(body: &[u8]) -> u64 {
    read_by_calls(body, |cursor, rows| exports::rib_entries(body, SUBTYPE, cursor, rows).count as usize)
}

/// The expert's call behind the same wall.
fn read_walled(body: &[u8]) -> u64 {
    read_by_calls(body, |cursor, rows| walled::rib_entries(body, SUBTYPE, cursor, rows))
}

fn numbered_by_ours(body: &[u8], count: usize) -> u64 {
    let mut sum = 0u64;
    for number in 0..count {
        let (_, [peer, originated, _, start, end]) = exports::rib_entry(body, SUBTYPE, number);
        sum = sum.wrapping_add(said(peer, originated, start, end - start));
    }
    sum
}

fn read_by_expert(body: &[u8]) -> u64 {
    let entries = Entries::new(SUBTYPE, body).expect("the head is readable");
    let mut sum = 0u64;
    for entry in entries {
        let (start, length) = (entry.attributes_at as u64, entry.attributes_len as u64);
        sum = sum.wrapping_add(said(u64::from(entry.peer_index), u64::from(entry.originated), start, length));
    }
    sum
}

/// The crate keeps copies of attributes; their place is the sum of the sizes before them.
fn read_by_crate(body: &Bytes) -> u64 {
    let mut start = 7 + usize::from(BITS) / 8;
    let mut sum = 0u64;
    for entry in parse(body).rib_entries {
        start += FIXED;
        let length = entry.attributes.0.len();
        let (peer, originated) = (u64::from(entry.peer_index), u64::from(entry.originated_time));
        sum = sum.wrapping_add(said(peer, originated, start as u64, length as u64));
        start += length;
    }
    sum
}

/// A builder of a body that is begun.
fn begun(out: &mut [u8]) -> [u64; 3] {
    let head = exports::begin_rib(out, SUBTYPE, SEQUENCE, BITS, &PREFIX).octets as usize;
    exports::open_rib(&out[..head], SUBTYPE).1
}

fn begun_by_expert(out: &mut [u8]) -> [u64; 3] {
    begin(out, SUBTYPE, SEQUENCE, BITS, &PREFIX).expect("the head fits").state()
}

fn build_by_ours(out: &mut [u8], entries: &[NewEntry]) -> u64 {
    let mut builder = begun(out);
    let refusals: u32 = entries.iter().map(|entry| exports::push_entry(out, SUBTYPE, &mut builder, entry)).sum();
    builder[0] - u64::from(refusals)
}

/// The expert's call behind the same wall.
fn build_walled(out: &mut [u8], entries: &[NewEntry]) -> u64 {
    let mut state = begun_by_expert(out);
    let refusals: u32 = entries.iter().map(|entry| walled::push_entry(out, SUBTYPE, &mut state, entry)).sum();
    state[0] - u64::from(refusals)
}

/// How many entries go in by one call, where their rows are made between the calls. 32 to 128 are about alike; fewer, and many
/// more, are slower.
const PUSHED: usize = 64;

/// An entry's values, its attributes by where they stand in the body that they are a part of.
#[inline(always)]
fn row(entry: &NewEntry, body: &[u8]) -> [u64; 5] {
    let start = (entry.attributes.as_ptr() as usize - body.as_ptr() as usize) as u64;
    let [peer, originated, path] = [u32::from(entry.peer_index), entry.originated, entry.path].map(u64::from);
    [peer, originated, path, start, start + entry.attributes.len() as u64]
}

/// The body begun by a builder, given entries whose rows are made between the calls.
#[inline(always)]
fn by_chunks(
    mut builder: [u64; 3],
    out: &mut [u8],
    entries: &[NewEntry],
    body: &[u8],
    push: impl Fn(&mut [u8], &mut [u64; 3], &[[u64; 5]], &[u8]) -> usize,
) -> u64 {
    let (mut rows, mut refused) = ([[0; 5]; PUSHED], 0);
    for chunk in entries.chunks(PUSHED) {
        rows.iter_mut().zip(chunk).for_each(|(place, entry)| *place = row(entry, body));
        refused += chunk.len() - push(out, &mut builder, &rows[..chunk.len()], body);
    }
    builder[0] - refused as u64
}

/// The same by one call.
#[inline(always)]
fn at_once(
    mut builder: [u64; 3],
    out: &mut [u8],
    rows: &[[u64; 5]],
    body: &[u8],
    push: impl Fn(&mut [u8], &mut [u64; 3], &[[u64; 5]], &[u8]) -> usize,
) -> u64 {
    let refused = rows.len() - push(out, &mut builder, rows, body);
    builder[0] - refused as u64
}

fn push_by_ours(out: &mut [u8], builder: &mut [u64; 3], rows: &[[u64; 5]], attributes: &[u8]) -> usize {
    exports::push_entries(out, SUBTYPE, builder, rows.as_flattened(), attributes).count as usize
}

/// The expert's call behind the same wall.
fn push_walled(out: &mut [u8], builder: &mut [u64; 3], rows: &[[u64; 5]], attributes: &[u8]) -> usize {
    walled::push_entries(out, SUBTYPE, builder, rows, attributes)
}

fn add_by_ours(out: &mut [u8], entries: &[NewEntry]) -> u64 {
    let head = exports::begin_rib(out, SUBTYPE, SEQUENCE, BITS, &PREFIX).octets;
    entries.iter().fold(head, |len, entry| exports::add_entry(out, len as usize, SUBTYPE, entry).octets)
}

fn build_by_expert(out: &mut [u8], entries: &[NewEntry]) -> u64 {
    let mut builder: Builder = begin(out, SUBTYPE, SEQUENCE, BITS, &PREFIX).expect("the head fits");
    let refusals: u64 = entries.iter().map(|entry| builder.push(out, entry).map_or_else(u64::from, |()| 0)).sum();
    builder.len as u64 - refusals
}
