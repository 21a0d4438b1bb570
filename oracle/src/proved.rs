//! The proved library, asked through its C exports (`include/mrt.h`). It is to have no difference from the reading.

use crate::answers::{
    Address, Answer, Builder, Candidate, Counted, Counters, DumpedRoute, Event, Frame, Header, Missing, NewDump,
    NewEntry, NewRows, Peer, PeerTable, RibEntry, RibStep, RibTable, Rowed, TableDump, Walk,
};
use crate::exports::{self, Found, Handed, Written};
use crate::question::{Question, Reply};
use crate::subject::{NewHead, NewTable, Subject};

/// No refusal of 01: two exports that are to say the same do not.
const AT_ODDS: u8 = 254;
/// Octets that no answer is to keep.
const LENT: [u8; 16] = [0xaa; 16];
/// A place beside the lent ones, which a call is to leave.
const BESIDE: u64 = 0xaaaa_aaaa_aaaa_aaaa;

fn header(values: &[u64]) -> Header {
    Header {
        timestamp: values[0] as u32,
        kind: values[1] as u16,
        subtype: values[2] as u16,
        wire: values[3] as u32,
        stored: values[4] as u32,
        micros: values[5] as u32,
    }
}

fn frame(values: &[u64]) -> Frame {
    Frame { header: header(values), body: values[6] as usize, end: values[7] as usize }
}

fn written(written: Written) -> Option<Answer<usize>> {
    Some(Answer { refusal: written.refusal as u8, value: written.octets as usize })
}

fn found(found: Found) -> Option<Answer<usize>> {
    Some(Answer { refusal: found.refusal as u8, value: found.id as usize })
}

/// What a walk's answer is, by the number of its kind.
fn event(values: &[u64; 10]) -> Event {
    let place = |i: usize| values[i] as usize;
    match values[0] {
        1 => Event::Record { start: place(1), end: place(9), kind: values[3] as u16, subtype: values[4] as u16 },
        2 => Event::Gap {
            start: place(1),
            end: place(2),
            refusal: values[3] as u8,
            evidence: values[4] as u8,
            confirmed: values[5] as u8,
        },
        3 => Event::End { offset: place(1) },
        _ => Event::Window { start: place(1), window: place(2), refusal: values[3] as u8 },
    }
}

/// The check of a framed record's body by the call that does nothing else, 0 where no record is framed.
fn check_alone(stream: &[u8], offset: usize) -> u32 {
    let (refusal, values) = exports::frame(stream, offset);
    if refusal != 0 {
        return refusal;
    }
    let Frame { header, body, end } = frame(&values);
    exports::check_body(&stream[body..end], header.kind, header.subtype, header.stored)
}

/// The values of entry `index` as the cursor comes to them, where it does.
fn by_cursor(subtype: u16, body: &[u8], index: usize) -> Option<[u64; 5]> {
    let (refusal, [mut at, mut left]) = exports::rib_first(body, subtype);
    if refusal != 0 {
        return None;
    }
    let mut passed = 0;
    loop {
        let (_, [more, entry @ .., next, after]) = exports::rib_next(body, subtype, at as usize, left as u16);
        if more == 0 || passed == index {
            return (more == 1).then_some(entry);
        }
        (at, left, passed) = (next, after, passed + 1);
    }
}

/// The same as the call hands them out that hands out many, three at a time.
fn by_rows(subtype: u16, body: &[u8], index: usize) -> Option<[u64; 5]> {
    let (refusal, mut cursor) = exports::rib_first(body, subtype);
    if refusal != 0 {
        return None;
    }
    let (mut rows, mut passed) = ([[0; 5]; 3], 0);
    loop {
        let count = exports::rib_entries(body, subtype, &mut cursor, &mut rows).count as usize;
        if index < passed + count || count < rows.len() {
            return rows[..count].get(index - passed).copied();
        }
        passed += count;
    }
}

/// Whether the call that hands out many records has those that the walk hands out from there on, up to three, and leaves the
/// walk where they do.
fn records_agree(stream: &[u8], walk: [u64; 2]) -> bool {
    let (mut by_one, mut records) = (walk, Vec::new());
    while records.len() < 3 {
        let (mut after, mut out) = (by_one, [0; 10]);
        exports::next(stream, &mut after, 0, 1, &mut out);
        if out[0] != 1 {
            break;
        }
        by_one = after;
        records.push(out);
    }
    let (mut many, mut rows) = (walk, [[0; 10]; 3]);
    let handed = exports::records(stream, &mut many, &mut rows);
    let refusal = if walk[0] > stream.len() as u64 { 8 } else { 0 };
    (handed.refusal, handed.count as usize) == (refusal, records.len())
        && rows[..records.len()] == records
        && many == by_one
}

/// A builder as its three numbers, and back.
fn places(builder: Builder) -> [u64; 3] {
    [builder.length as u64, builder.count_at as u64, builder.count]
}

fn builder([length, count_at, count]: [u64; 3]) -> Builder {
    Builder { length: length as usize, count_at: count_at as usize, count }
}

/// One entry pushed, and by the call that takes many on copies, which is to do the same. That call stops at a value that does
/// not fit and for want of room, and does not refuse.
fn pushed_both_ways(buffer: &mut [u8], subtype: u16, builder: &mut [u64; 3], entry: &NewEntry) -> u32 {
    let (mut copy, mut other) = (buffer.to_vec(), *builder);
    let NewEntry { peer_index, originated, path, attributes } = *entry;
    let row = [peer_index.into(), originated.into(), path.into(), 0, attributes.len() as u64];
    let rowed = exports::push_entries(&mut copy, subtype, &mut other, &row, attributes);
    let refusal = exports::push_entry(buffer, subtype, builder, entry);
    let expected = match refusal {
        0 => Handed { count: 1, refusal },
        9 | 10 => Handed { count: 0, refusal: 0 },
        _ => Handed { count: 0, refusal },
    };
    if rowed != expected || copy != buffer || other != *builder {
        return AT_ODDS.into();
    }
    refusal
}

/// The counters of their four places, where those beside them are as they were and each holds a number of its size.
fn counters([before, table_seen, table, dump_seen, dump, after]: [u64; 6]) -> Option<Counters> {
    let kept = (before, after) == (BESIDE, BESIDE) && table_seen.max(dump_seen) <= 1;
    let (table, dump) = (table.try_into().ok()?, dump.try_into().ok()?);
    kept.then_some(Counters { table_seen: table_seen == 1, table, dump_seen: dump_seen == 1, dump })
}

/// The entry added by a builder that is opened for it.
fn pushed(buffer: &mut [u8], length: usize, subtype: u16, entry: &NewEntry) -> Written {
    let refused = |refusal| Written { octets: 0, refusal };
    let Some(body) = buffer.get(..length) else {
        return refused(8);
    };
    let (refusal, mut builder) = exports::open_rib(body, subtype);
    if refusal != 0 {
        return refused(refusal);
    }
    let before = builder;
    match pushed_both_ways(buffer, subtype, &mut builder, entry) {
        0 => Written { octets: builder[0], refusal: 0 },
        refusal if builder == before => refused(refusal),
        _ => refused(u32::from(AT_ODDS)),
    }
}

pub struct Proved;

impl Subject for Proved {
    fn name(&self) -> &'static str {
        "proved"
    }

    fn header_read(&self, stream: &[u8], offset: usize) -> Option<Answer<Header>> {
        let (refusal, values) = exports::read_header(stream, offset);
        Some(Answer { refusal: refusal as u8, value: header(&values) })
    }

    fn header_write(&self, out: &mut [u8], h: &Header) -> Option<Answer<usize>> {
        written(exports::write_header(out, h.timestamp, h.kind, h.subtype, h.stored, h.micros))
    }

    fn frame(&self, stream: &[u8], offset: usize) -> Option<Answer<Frame>> {
        let (refusal, values) = exports::frame(stream, offset);
        Some(Answer { refusal: refusal as u8, value: frame(&values) })
    }

    /// The judgement, and the body check alone, which is to refuse the same.
    fn judge(&self, stream: &[u8], offset: usize) -> Option<Answer<Frame>> {
        let (refusal, values) = exports::judge(stream, offset);
        if check_alone(stream, offset) != refusal {
            return Some(Err(AT_ODDS).into());
        }
        Some(Answer { refusal: refusal as u8, value: frame(&values[1..]) })
    }

    fn body_check(&self, kind: u16, subtype: u16, stored: u32, body: &[u8]) -> Option<u8> {
        Some(exports::check_body(body, kind, subtype, stored) as u8)
    }

    /// The slots come from one call and the values from the other, which asks for no slots.
    fn peer_read(&self, body: &[u8], slots: &mut [Peer]) -> Option<Answer<PeerTable>> {
        let refusal = exports::load_peers(body, slots);
        let (unreadable, values) = exports::check_peers(body);
        if refusal != 0 {
            let at_odds = (refusal == 9) != (unreadable == 0);
            return Some(Err(if at_odds { AT_ODDS } else { refusal as u8 }).into());
        }
        let [collector, view_at, view_len, count, ..] = values;
        let [view_at, view_len, count] = [view_at, view_len, count].map(|value| value as usize);
        let value = PeerTable { collector: collector as u32, view_at, view_len, count };
        Some(Answer { refusal: unreadable as u8, value })
    }

    fn peer_find(&self, slots: &[Peer], count: usize, address: &Address) -> Option<Answer<usize>> {
        found(exports::find_peer(slots, count, u8::from(address.ipv6), &address.octets))
    }

    fn peer_add(&self, slots: &mut [Peer], count: usize, peer: &Peer) -> Option<Answer<usize>> {
        found(exports::add_peer(slots, count, peer.kind, peer.id, &peer.address, peer.asn))
    }

    fn peer_write(&self, out: &mut [u8], table: &NewTable) -> Option<Answer<usize>> {
        written(exports::write_peers(out, table.collector, table.view, table.slots, table.count))
    }

    fn rib_read(&self, subtype: u16, body: &[u8]) -> Option<Answer<RibTable>> {
        let mut prefix = [0; 16];
        let (refusal, out) = exports::read_rib(body, subtype, &mut prefix);
        let value = RibTable {
            sequence: out[0] as u32,
            bits: out[1] as u8,
            prefix,
            declared: out[2] as u16,
            read: out[3] as u16,
        };
        Some(Answer { refusal: refusal as u8, value })
    }

    /// The entry by its number, and by the cursor, one at a time and many, which is to come to the same.
    fn rib_entry(&self, subtype: u16, body: &[u8], timestamp: u32, index: usize) -> Option<Answer<RibEntry>> {
        let (refusal, out) = exports::rib_entry(body, subtype, index);
        let read = (refusal == 0).then_some(out);
        if by_cursor(subtype, body, index) != read || by_rows(subtype, body, index) != read {
            return Some(Err(AT_ODDS).into());
        }
        if refusal != 0 {
            return Some(Err(refusal as u8).into());
        }
        let [peer, originated, path, start, end] = out;
        let value = RibEntry {
            peer_index: peer as u16,
            originated: originated as u32,
            path: path as u32,
            attributes_at: start as usize,
            attributes_len: (end - start) as usize,
            age: exports::age(timestamp, originated as u32),
        };
        Some(Ok(value).into())
    }

    /// The step by the call for one entry, and by the call for many with one row, which is to do the same.
    fn rib_next(&self, subtype: u16, body: &[u8], at: usize, left: u16) -> Option<Answer<RibStep>> {
        let (refusal, [more, peer, originated, path, start, end, next, after]) =
            exports::rib_next(body, subtype, at, left);
        let before = [at as u64, u64::from(left)];
        let (mut cursor, mut rows) = (before, [[0; 5]]);
        let handed = exports::rib_entries(body, subtype, &mut cursor, &mut rows);
        let moved = if more == 1 { [next, after] } else { before };
        if (handed.refusal, handed.count, cursor) != (refusal, more, moved)
            || rows != [[peer, originated, path, start, end]]
        {
            return Some(Err(AT_ODDS).into());
        }
        let entry = RibEntry {
            peer_index: peer as u16,
            originated: originated as u32,
            path: path as u32,
            attributes_at: start as usize,
            attributes_len: (end - start) as usize,
            age: 0,
        };
        let value = RibStep { handed: more == 1, entry, at: next as usize, left: after as u16 };
        Some(Answer { refusal: refusal as u8, value })
    }

    fn rib_begin(&self, out: &mut [u8], head: &NewHead) -> Option<Answer<usize>> {
        written(exports::begin_rib(out, head.subtype, head.sequence, head.bits, &head.prefix))
    }

    /// The entry added to the body, and by a builder on a copy, alone and as a row, which is to write the same.
    fn rib_add(&self, buffer: &mut [u8], length: usize, subtype: u16, entry: &NewEntry) -> Option<Answer<usize>> {
        let mut copy = buffer.to_vec();
        let by_builder = pushed(&mut copy, length, subtype, entry);
        let added = exports::add_entry(buffer, length, subtype, entry);
        if by_builder != added || copy != buffer {
            return Some(Err(AT_ODDS).into());
        }
        written(added)
    }

    /// The builder's places after a refusal are to be as they were.
    fn rib_push(&self, buffer: &mut [u8], subtype: u16, before: Builder, entry: &NewEntry) -> Option<Answer<Builder>> {
        let mut after = places(before);
        Some(match pushed_both_ways(buffer, subtype, &mut after, entry) {
            0 => Ok(builder(after)).into(),
            refusal if after == places(before) => Err(refusal as u8).into(),
            _ => Err(AT_ODDS).into(),
        })
    }

    /// A refusal of the rows, too, is to leave the builder's places, and to count none.
    fn rib_push_rows(&self, buffer: &mut [u8], subtype: u16, before: Builder, rows: &NewRows) -> Option<Answer<Rowed>> {
        let mut after = places(before);
        let Handed { count, refusal } =
            exports::push_entries(buffer, subtype, &mut after, rows.values, rows.attributes);
        Some(match (refusal, count) {
            (0, _) => Ok(Rowed { rows: count as usize, builder: builder(after) }).into(),
            (_, 0) if after == places(before) => Err(refusal as u8).into(),
            _ => Err(AT_ODDS).into(),
        })
    }

    /// Both addresses are written over what was lent, and a refusal leaves that and the places.
    fn table_dump_read(&self, subtype: u16, body: &[u8]) -> Option<Answer<TableDump>> {
        let (mut prefix, mut peer) = (LENT, LENT);
        let (refusal, out) = exports::read_table_dump(body, subtype, &mut prefix, &mut peer);
        if refusal != 0 {
            let left = (out, prefix, peer) == ([0; 8], LENT, LENT);
            return Some(Err(if left { refusal as u8 } else { AT_ODDS }).into());
        }
        let [view, sequence, bits, status, originated, asn, start, end] = out;
        let route = DumpedRoute {
            view: view as u16,
            sequence: sequence as u16,
            prefix,
            bits: bits as u8,
            status: status as u8,
            originated: originated as u32,
            peer,
            asn: asn as u32,
        };
        Some(Ok(TableDump { route, attributes_at: start as usize, attributes_end: end as usize }).into())
    }

    fn table_dump_write(&self, out: &mut [u8], dump: &NewDump) -> Option<Answer<usize>> {
        written(exports::write_table_dump(out, dump))
    }

    /// No answer, which is a failure, where the call refuses, writes beside what it was lent, or hands out what is no answer.
    fn missing(&self, before: Counters, kind: u16, subtype: u16, body: &[u8]) -> Option<Counted> {
        let Counters { table_seen, table, dump_seen, dump } = before;
        let mut places = [BESIDE, table_seen.into(), table.into(), dump_seen.into(), dump.into(), BESIDE];
        let mut out = [BESIDE; 5];
        let refusal = exports::missing(body, kind, subtype, &mut places[1..5], &mut out[1..4]);
        let told = match (refusal, out) {
            (0, [BESIDE, 0, 0, 0, BESIDE]) => None,
            (0, [BESIDE, 1, missing, repeat @ 0..=1, BESIDE]) => {
                Some(Missing { missing: missing.try_into().ok()?, repeat: repeat == 1 })
            }
            _ => return None,
        };
        Some(Counted { counters: counters(places)?, told })
    }

    fn candidate(&self, stream: &[u8], offset: usize) -> Option<Answer<Candidate>> {
        let (refusal, values) = exports::candidate(stream, offset);
        let value = Candidate { stands: values[0] == 1, evidence: values[1] as u8, end: values[2] as usize };
        Some(Answer { refusal: refusal as u8, value })
    }

    fn step(&self, stream: &[u8], walk: &mut Walk, window: usize, asked: u8) -> Option<Event> {
        let mut state = [walk.position as u64, u64::from(walk.finished)];
        assert!(records_agree(stream, state), "mrt_records has other records than mrt_next from {state:?} on");
        let mut out = [0; 10];
        let refusal = exports::next(stream, &mut state, window, asked, &mut out);
        *walk = Walk { position: state[0] as usize, finished: state[1] == 1 };
        Some(if refusal == 8 { Event::Beyond } else { event(&out) })
    }
}

/// No disagreement of the proved library has a name.
pub fn difference(_: &Question, _: &Reply, _: &Reply) -> Option<&'static str> {
    None
}

/// The two parts of a walk's call have no call of their own.
pub fn may_be_silent(question: &Question, _: &Reply) -> bool {
    matches!(question, Question::Aligned { .. } | Question::Scan { .. })
}
