//! The crate asked 01's questions. Values, offsets, evidence and counts are the crate's own. Where it has no number
//! for a refusal, or no field for a value, the module at hand says where that comes from.

mod headers;
mod peers;
mod ribs;
mod walks;
mod words;

use crate::answers::{
    Address, Answer, Builder, Candidate, Event, Found, Frame, Header, NewEntry, NewRows, Peer, PeerTable, RibEntry,
    RibTable, Rowed, Tried, Walk,
};
use crate::subject::{NewHead, NewTable, Subject};

pub use walks::{evidence_number, CrateWalk};
pub use words::{number as number_of_words, TOO_LARGE, UNKNOWN_WORDS};

pub use bgpkit_part::parser::with_own_parsers;

/// The crate, with 01's two replacements and 02's one.
pub struct Oracle;

impl Subject for Oracle {
    fn name(&self) -> &'static str {
        "crate"
    }

    fn header_read(&self, stream: &[u8], at: usize) -> Option<Answer<Header>> {
        headers::read(stream, at)
    }

    fn header_write(&self, out: &mut [u8], header: &Header) -> Option<Answer<usize>> {
        headers::write(out, header)
    }

    fn frame(&self, stream: &[u8], at: usize) -> Option<Answer<Frame>> {
        headers::frame(stream, at)
    }

    fn judge(&self, stream: &[u8], at: usize) -> Option<Answer<Frame>> {
        headers::judge(stream, at)
    }

    fn peer_read(&self, body: &[u8], slots: &mut [Peer]) -> Option<Answer<PeerTable>> {
        peers::read(body, slots)
    }

    fn peer_find(&self, slots: &[Peer], count: usize, address: &Address) -> Option<Answer<usize>> {
        peers::find(slots, count, address)
    }

    fn peer_add(&self, slots: &mut [Peer], count: usize, peer: &Peer) -> Option<Answer<usize>> {
        peers::add(slots, count, peer)
    }

    fn peer_write(&self, out: &mut [u8], table: &NewTable) -> Option<Answer<usize>> {
        peers::write(out, table)
    }

    fn rib_read(&self, subtype: u16, body: &[u8]) -> Option<Answer<RibTable>> {
        Some(ribs::read(subtype, body))
    }

    fn rib_entry(&self, subtype: u16, body: &[u8], timestamp: u32, index: usize) -> Option<Answer<RibEntry>> {
        Some(ribs::entry(subtype, body, timestamp, index))
    }

    fn rib_begin(&self, out: &mut [u8], head: &NewHead) -> Option<Answer<usize>> {
        ribs::begin(out, head)
    }

    fn rib_add(&self, buffer: &mut [u8], length: usize, subtype: u16, entry: &NewEntry) -> Option<Answer<usize>> {
        ribs::add(buffer, length, subtype, entry)
    }

    fn rib_push_rows(
        &self,
        buffer: &mut [u8],
        subtype: u16,
        builder: Builder,
        rows: &NewRows,
    ) -> Option<Answer<Rowed>> {
        ribs::push_rows(buffer, subtype, builder, rows)
    }

    fn candidate(&self, stream: &[u8], at: usize) -> Option<Answer<Candidate>> {
        walks::candidate(stream, at).map(|candidate| Ok(candidate).into())
    }

    fn aligned(&self, stream: &[u8], from: usize, asked: u8) -> Option<Tried> {
        walks::aligned(stream, from, asked)
    }

    fn scan(&self, stream: &[u8], from: usize, window: usize, asked: u8) -> Option<Found> {
        walks::scan(stream, from, window, asked)
    }

    fn step(&self, stream: &[u8], walk: &mut Walk, window: usize, asked: u8) -> Option<Event> {
        walks::step(stream, walk, window, asked)
    }

    fn walk(&self, stream: &[u8], window: usize, asked: u8) -> Option<Vec<Event>> {
        Some(CrateWalk::new(stream, 0, window, asked).map(|(event, _)| event).collect())
    }

    fn causes(&self, stream: &[u8], window: usize, asked: u8) -> Option<Vec<u8>> {
        let causes = CrateWalk::new(stream, 0, window, asked).filter_map(|(_, cause)| cause);
        Some(causes.map(|cause| words::number(&cause)).collect())
    }
}
