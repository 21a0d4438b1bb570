//! Whoever answers 01's questions: the plain reading, the crate, and later the proved library through its C exports.

use crate::answers::{
    Address, Answer, Builder, Candidate, Counted, Counters, Event, Found, Frame, Header, NewDump, NewEntry, NewRows,
    Peer, PeerTable, RibEntry, RibStep, RibTable, Rowed, TableDump, Tried, Walk,
};
use crate::reading;

/// One method for each question. A subject that has no answer to a question, or to one case of it, says `None`, and
/// that case is not compared. A refused call leaves `out` and `slots` as they were.
#[allow(unused_variables)]
pub trait Subject {
    fn name(&self) -> &'static str;

    fn header_read(&self, stream: &[u8], at: usize) -> Option<Answer<Header>> {
        None
    }

    fn header_write(&self, out: &mut [u8], header: &Header) -> Option<Answer<usize>> {
        None
    }

    fn frame(&self, stream: &[u8], at: usize) -> Option<Answer<Frame>> {
        None
    }

    fn judge(&self, stream: &[u8], at: usize) -> Option<Answer<Frame>> {
        None
    }

    /// Answers 0 or the refusal of a body by itself.
    fn body_check(&self, kind: u16, subtype: u16, stored: u32, body: &[u8]) -> Option<u8> {
        None
    }

    fn peer_read(&self, body: &[u8], slots: &mut [Peer]) -> Option<Answer<PeerTable>> {
        None
    }

    fn peer_find(&self, slots: &[Peer], count: usize, address: &Address) -> Option<Answer<usize>> {
        None
    }

    fn peer_add(&self, slots: &mut [Peer], count: usize, peer: &Peer) -> Option<Answer<usize>> {
        None
    }

    fn peer_write(&self, out: &mut [u8], table: &NewTable) -> Option<Answer<usize>> {
        None
    }

    fn rib_read(&self, subtype: u16, body: &[u8]) -> Option<Answer<RibTable>> {
        None
    }

    fn rib_entry(&self, subtype: u16, body: &[u8], timestamp: u32, index: usize) -> Option<Answer<RibEntry>> {
        None
    }

    /// The entry at a cursor: where it is to start, and how many are left.
    fn rib_next(&self, subtype: u16, body: &[u8], at: usize, left: u16) -> Option<Answer<RibStep>> {
        None
    }

    /// Answers the length of the body begun.
    fn rib_begin(&self, out: &mut [u8], head: &NewHead) -> Option<Answer<usize>> {
        None
    }

    /// Answers the length of the body with its new entry.
    fn rib_add(&self, buffer: &mut [u8], length: usize, subtype: u16, entry: &NewEntry) -> Option<Answer<usize>> {
        None
    }

    /// The entry where a builder stands; the builder after it is answered.
    fn rib_push(&self, buffer: &mut [u8], subtype: u16, builder: Builder, entry: &NewEntry) -> Option<Answer<Builder>> {
        None
    }

    /// The entries of rows where a builder stands, up to the first that is refused.
    fn rib_push_rows(
        &self,
        buffer: &mut [u8],
        subtype: u16,
        builder: Builder,
        rows: &NewRows,
    ) -> Option<Answer<Rowed>> {
        None
    }

    fn table_dump_read(&self, subtype: u16, body: &[u8]) -> Option<Answer<TableDump>> {
        None
    }

    fn table_dump_write(&self, out: &mut [u8], dump: &NewDump) -> Option<Answer<usize>> {
        None
    }

    /// A record counted: the counters after it, and how many rows are missing before it.
    fn missing(&self, counters: Counters, kind: u16, subtype: u16, body: &[u8]) -> Option<Counted> {
        None
    }

    fn candidate(&self, stream: &[u8], at: usize) -> Option<Answer<Candidate>> {
        None
    }

    fn aligned(&self, stream: &[u8], from: usize, asked: u8) -> Option<Tried> {
        None
    }

    fn scan(&self, stream: &[u8], from: usize, window: usize, asked: u8) -> Option<Found> {
        None
    }

    fn step(&self, stream: &[u8], walk: &mut Walk, window: usize, asked: u8) -> Option<Event> {
        None
    }

    /// Every answer of a fresh walk, up to the last.
    fn walk(&self, stream: &[u8], window: usize, asked: u8) -> Option<Vec<Event>> {
        let mut walk = Walk::default();
        let mut events = Vec::new();
        // One call more than 01 allows, so that a walk that does not come to its end is seen and not waited for.
        for _ in 0..=most_calls(stream.len()) {
            let event = self.step(stream, &mut walk, window, asked)?;
            events.push(event);
            if event.is_last() {
                break;
            }
        }
        Some(events)
    }

    /// The refusal number that stands behind each gap, and behind a refusal 11, of a fresh walk.
    fn causes(&self, stream: &[u8], window: usize, asked: u8) -> Option<Vec<u8>> {
        let refusal = |event| match event {
            Event::Gap { refusal, .. } | Event::Window { refusal, .. } => Some(refusal),
            _ => None,
        };
        Some(self.walk(stream, window, asked)?.into_iter().filter_map(refusal).collect())
    }
}

/// The call by which a fresh walk over `n` octets has given its last answer.
pub fn most_calls(n: usize) -> usize {
    2 * (n / 12) + 2
}

/// A peer table to be written.
#[derive(Debug, Clone, Copy)]
pub struct NewTable<'a> {
    pub collector: u32,
    pub view: &'a [u8],
    pub slots: &'a [Peer],
    pub count: usize,
}

/// A RIB body to be begun.
#[derive(Debug, Clone, Copy)]
pub struct NewHead {
    pub subtype: u16,
    pub sequence: u32,
    pub bits: u8,
    pub prefix: [u8; 16],
}

/// The plain reading of 01. It answers everything.
pub struct Reading;

impl Subject for Reading {
    fn name(&self) -> &'static str {
        "reading"
    }

    fn header_read(&self, stream: &[u8], at: usize) -> Option<Answer<Header>> {
        Some(reading::read_header(stream, at))
    }

    fn header_write(&self, out: &mut [u8], header: &Header) -> Option<Answer<usize>> {
        Some(reading::write_header(out, header))
    }

    fn frame(&self, stream: &[u8], at: usize) -> Option<Answer<Frame>> {
        Some(reading::frame(stream, at))
    }

    fn judge(&self, stream: &[u8], at: usize) -> Option<Answer<Frame>> {
        Some(reading::judge(stream, at))
    }

    fn body_check(&self, kind: u16, subtype: u16, stored: u32, body: &[u8]) -> Option<u8> {
        Some(reading::body_check(kind, subtype, stored, body))
    }

    fn peer_read(&self, body: &[u8], slots: &mut [Peer]) -> Option<Answer<PeerTable>> {
        Some(reading::read_peers(body, slots))
    }

    fn peer_find(&self, slots: &[Peer], count: usize, address: &Address) -> Option<Answer<usize>> {
        Some(reading::find_peer(slots, count, address))
    }

    fn peer_add(&self, slots: &mut [Peer], count: usize, peer: &Peer) -> Option<Answer<usize>> {
        Some(reading::add_peer(slots, count, peer))
    }

    fn peer_write(&self, out: &mut [u8], table: &NewTable) -> Option<Answer<usize>> {
        Some(reading::write_peers(out, table.collector, table.view, table.slots, table.count))
    }

    fn rib_read(&self, subtype: u16, body: &[u8]) -> Option<Answer<RibTable>> {
        Some(reading::read_rib(subtype, body))
    }

    fn rib_entry(&self, subtype: u16, body: &[u8], timestamp: u32, index: usize) -> Option<Answer<RibEntry>> {
        Some(reading::read_entry(subtype, body, timestamp, index))
    }

    fn rib_next(&self, subtype: u16, body: &[u8], at: usize, left: u16) -> Option<Answer<RibStep>> {
        Some(reading::next_entry(subtype, body, at, left))
    }

    fn rib_begin(&self, out: &mut [u8], head: &NewHead) -> Option<Answer<usize>> {
        Some(reading::begin_rib(out, head.subtype, head.sequence, head.bits, &head.prefix))
    }

    fn rib_add(&self, buffer: &mut [u8], length: usize, subtype: u16, entry: &NewEntry) -> Option<Answer<usize>> {
        Some(reading::add_entry(buffer, length, subtype, entry))
    }

    fn rib_push(&self, buffer: &mut [u8], subtype: u16, builder: Builder, entry: &NewEntry) -> Option<Answer<Builder>> {
        Some(reading::push_entry(buffer, subtype, builder, entry))
    }

    fn rib_push_rows(
        &self,
        buffer: &mut [u8],
        subtype: u16,
        builder: Builder,
        rows: &NewRows,
    ) -> Option<Answer<Rowed>> {
        Some(reading::push_rows(buffer, subtype, builder, rows))
    }

    fn table_dump_read(&self, subtype: u16, body: &[u8]) -> Option<Answer<TableDump>> {
        Some(reading::read_table_dump(subtype, body))
    }

    fn table_dump_write(&self, out: &mut [u8], dump: &NewDump) -> Option<Answer<usize>> {
        Some(reading::write_table_dump(out, dump))
    }

    fn missing(&self, counters: Counters, kind: u16, subtype: u16, body: &[u8]) -> Option<Counted> {
        Some(reading::count_missing(counters, kind, subtype, body))
    }

    fn candidate(&self, stream: &[u8], at: usize) -> Option<Answer<Candidate>> {
        Some(reading::candidate(stream, at))
    }

    fn aligned(&self, stream: &[u8], from: usize, asked: u8) -> Option<Tried> {
        Some(reading::aligned(stream, from, asked))
    }

    fn scan(&self, stream: &[u8], from: usize, window: usize, asked: u8) -> Option<Found> {
        Some(reading::scan(stream, from, window, asked))
    }

    fn step(&self, stream: &[u8], walk: &mut Walk, window: usize, asked: u8) -> Option<Event> {
        Some(reading::step(stream, walk, window, asked))
    }
}
