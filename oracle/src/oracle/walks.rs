//! The walk and its parts, by the crate's recovering iterator. The iterator hands out records without their offsets:
//! a record starts where the answer before it ended, and its header, as the crate read it, says where it ends.

use crate::answers::{Candidate, Event, Found, Tried, Walk};
use crate::reading;
use bgpkit_part::models::CommonHeader;
use bgpkit_part::parser::iters::recovery::{
    RecoveringRecordIterator, RecoveryConfig, RecoveryError, RecoveryEvent, RecoveryEvidence, RecoveryGap,
};
use bgpkit_part::parser::BgpkitParser;

/// The crate's walk over a stream from an offset on. Each answer comes with the crate's words for a refusal.
pub struct CrateWalk<'a> {
    stream: &'a [u8],
    base: usize,
    at: usize,
    finished: bool,
    records: RecoveringRecordIterator<&'a [u8]>,
}

impl<'a> CrateWalk<'a> {
    /// `from` is not beyond the stream.
    pub fn new(stream: &'a [u8], from: usize, window: usize, asked: u8) -> Self {
        let config = RecoveryConfig::default().with_max_scan_bytes(window).with_confirmation_records(asked);
        let records = BgpkitParser::from_reader(&stream[from..]).into_recovering_record_iter(config);
        CrateWalk { stream, base: from, at: from, finished: false, records }
    }

    fn record(&mut self, header: &CommonHeader) -> Event {
        let start = self.at;
        let header_size = if header.microsecond_timestamp.is_some() { 16 } else { 12 };
        self.at += header_size + header.length as usize;
        Event::Record { start, end: self.at, kind: header.entry_type as u16, subtype: header.entry_subtype }
    }

    fn gap(&mut self, gap: &RecoveryGap) -> Event {
        let start = self.base + gap.start_offset as usize;
        self.at = self.base + gap.end_offset as usize;
        Event::Gap {
            start,
            end: self.at,
            refusal: self.refusal(start),
            evidence: evidence_number(gap.evidence),
            confirmed: gap.confirmed_records,
        }
    }

    fn window(&self, error: &RecoveryError) -> Event {
        let start = self.base + error.offset as usize;
        Event::Window { start, window: error.scanned_bytes as usize, refusal: self.refusal(start) }
    }

    /// The crate has only words for it, so the number is the reading's.
    fn refusal(&self, start: usize) -> u8 {
        reading::judge(self.stream, start).refusal
    }
}

impl Iterator for CrateWalk<'_> {
    type Item = (Event, Option<String>);

    fn next(&mut self) -> Option<Self::Item> {
        if self.finished {
            return None;
        }
        let answer = match self.records.next() {
            Some(Ok(RecoveryEvent::Item(record))) => (self.record(&record.common_header), None),
            Some(Ok(RecoveryEvent::Gap(gap))) => (self.gap(&gap), Some(gap.cause)),
            Some(Err(error)) => (self.window(&error), Some(error.error.to_string())),
            None => (Event::End { offset: self.at }, None),
        };
        self.finished = answer.0.is_last();
        Some(answer)
    }
}

/// 1 is reserved. What follows tells it like 2 and 3, so that a crate whose scan takes type 5 shows.
pub fn evidence_number(evidence: RecoveryEvidence) -> u8 {
    match evidence {
        RecoveryEvidence::LegacyMrtChain => 1,
        RecoveryEvidence::BgpMarkerChain => 2,
        RecoveryEvidence::Bgp4MpStateChangeChain => 3,
        RecoveryEvidence::AlignedRecordChain => 4,
        RecoveryEvidence::EndOfStream => 5,
        _ => 0,
    }
}

fn first_event(stream: &[u8], from: usize, window: usize, asked: u8) -> Option<Event> {
    CrateWalk::new(stream, from, window, asked).next().map(|(event, _)| event)
}

/// Asked of a walk that is not finished and not beyond the stream: the crate's own walk has no other position.
pub fn step(stream: &[u8], walk: &mut Walk, window: usize, asked: u8) -> Option<Event> {
    if walk.finished || walk.position > stream.len() {
        return None;
    }
    let event = first_event(stream, walk.position, window, asked)?;
    match event {
        Event::Record { end, .. } | Event::Gap { end, .. } => walk.position = end,
        _ => walk.finished = true,
    }
    Some(event)
}

/// Twelve octets that no walk takes for a record and no scan for a part of one.
const NOTHING: [u8; 12] = [255; 12];
/// A record of a known type that is not carried, with an empty body.
const NOT_CARRIED: [u8; 12] = [0, 0, 0, 0, 0, 32, 0, 0, 0, 0, 0, 0];
/// The most octets that a candidate takes: a header with microseconds and the longest body.
const MOST_CANDIDATE: usize = 16 + 65_599;

/// A scan of one offset, twelve octets after a lost place, with one candidate asked for. The timestamp decides
/// nothing; it is overwritten so that no offset before the one in question can look like a candidate.
pub fn candidate(stream: &[u8], at: usize) -> Option<Candidate> {
    let rest = stream.get(at..)?;
    let mut torn = NOTHING.to_vec();
    torn.extend_from_slice(&rest[..rest.len().min(MOST_CANDIDATE)]);
    let timestamp = 12..torn.len().min(16);
    torn[timestamp].fill(255);
    let mut walk = CrateWalk::new(&torn, 0, 12, 1);
    match (walk.next()?.0, walk.next()) {
        (Event::Gap { end: 12, evidence: evidence @ 1..=3, .. }, Some((Event::Record { end, .. }, _))) => {
            Some(Candidate { stands: true, evidence, end: at + end - 12 })
        }
        _ => Some(Candidate::default()),
    }
}

/// A record that is refused with 5 is put before the place in question; with no window there is no scan.
pub fn aligned(stream: &[u8], from: usize, asked: u8) -> Option<Tried> {
    let mut refused = NOT_CARRIED.to_vec();
    refused.extend_from_slice(stream.get(from..)?);
    match first_event(&refused, 0, 0, asked)? {
        Event::Gap { end: 12, evidence: 4, confirmed, .. } => Some(Tried { passed: true, confirmed }),
        _ => Some(Tried::default()),
    }
}

/// The first octet is put out of reach by twelve that are lost. Where the scan stops among those twelve, the question
/// was not the one that was meant.
pub fn scan(stream: &[u8], from: usize, window: usize, asked: u8) -> Option<Found> {
    let mut torn = NOTHING.to_vec();
    torn.extend_from_slice(stream.get(from.checked_add(1)?..)?);
    match first_event(&torn, 0, window.saturating_add(11), asked)? {
        Event::Gap { end, evidence: 1..=3, .. } if end < 12 => None,
        Event::Gap { end, evidence: evidence @ 1..=3, .. } => {
            Some(Found { found: true, offset: from + 1 + (end - 12), evidence })
        }
        _ => Some(Found::default()),
    }
}
