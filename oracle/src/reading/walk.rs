//! Judgement of one record, candidates, the scan and the walk (01, Refusal numbers; Walk, confirmation, scan).

use super::check;
use super::header::{framed, header_at, with_body};
use crate::answers::{Answer, Candidate, Event, Found, Frame, Header, Tried, Walk};

/// The most octets of body that a candidate may have.
const MOST_STORED: u32 = 65_599;
/// A candidate's microseconds are below this.
const SECOND: u32 = 1_000_000;
/// The octets before a record's body, at the least.
const COMMON: usize = 12;

const MARKER: u8 = 2;
const STATE_CHANGE: u8 = 3;
const OWN_END: u8 = 4;
const STREAM_END: u8 = 5;

/// How one record was judged. A record that is framed has an end of its own, passed or not.
enum Judged {
    Passes(Frame),
    Fails { refusal: u8, end: usize },
    Unframed(u8),
}

/// The record at an offset: 8 beyond the stream, then 1, 2, 3, 1, 4, 5, 6, 7.
pub fn judge(stream: &[u8], at: usize) -> Answer<Frame> {
    let passed = match judged(stream, at) {
        Judged::Passes(frame) => Ok(frame),
        Judged::Fails { refusal, .. } | Judged::Unframed(refusal) => Err(refusal),
    };
    passed.into()
}

#[inline]
fn judged(stream: &[u8], at: usize) -> Judged {
    let frame = match framed(stream, at) {
        Ok(frame) => frame,
        Err(refusal) => return Judged::Unframed(refusal),
    };
    let body = &stream[frame.body..frame.end];
    match check::body_check(frame.header.kind, frame.header.subtype, frame.header.stored, body) {
        0 => Judged::Passes(frame),
        refusal => Judged::Fails { refusal, end: frame.end },
    }
}

/// The candidate at an offset: 8 beyond the stream.
pub fn candidate(stream: &[u8], at: usize) -> Answer<Candidate> {
    let within = at <= stream.len();
    within.then(|| standing(stream, at).unwrap_or_default()).ok_or(8).into()
}

/// The header's own tests come before any octet of the body is asked for.
fn standing(stream: &[u8], at: usize) -> Option<Candidate> {
    let header = header_at(stream, at).ok()?;
    if !is_plausible(&header) {
        return None;
    }
    let frame = with_body(stream, at, header).ok()?;
    let body = &stream[frame.body..frame.end];
    if check::body_check(header.kind, header.subtype, header.stored, body) != 0 {
        return None;
    }
    let evidence = if check::is_state_change(header.subtype) { STATE_CHANGE } else { MARKER };
    Some(Candidate { stands: true, evidence, end: frame.end })
}

/// Type 16 has no microseconds, so they are 0.
fn is_plausible(header: &Header) -> bool {
    matches!(header.kind, 16 | 17)
        && check::as_width(header.subtype).is_some()
        && header.stored <= MOST_STORED
        && header.micros < SECOND
}

/// 0 counts as 1.
fn at_least_one(asked: u8) -> u8 {
    asked.max(1)
}

/// Judges records from an offset on until the asked number pass or the stream ends exactly between two.
pub fn aligned(stream: &[u8], from: usize, asked: u8) -> Tried {
    let asked = at_least_one(asked);
    let mut at = from;
    for confirmed in 0..asked {
        if at == stream.len() {
            return Tried { passed: true, confirmed };
        }
        match judged(stream, at) {
            Judged::Passes(frame) => at = frame.end,
            _ => return Tried::default(),
        }
    }
    Tried { passed: true, confirmed: asked }
}

/// The evidence of the first of `asked` candidates in a row from an offset on.
fn row(stream: &[u8], at: usize, asked: u8) -> Option<u8> {
    let first = standing(stream, at)?;
    let mut end = first.end;
    for _ in 1..asked {
        end = standing(stream, end)?.end;
    }
    Some(first.evidence)
}

/// The first distance from 1 to `window` after `from` where a row stands.
pub fn scan(stream: &[u8], from: usize, window: usize, asked: u8) -> Found {
    let left = stream.len().saturating_sub(from);
    if left <= COMMON {
        return Found::default();
    }
    let distances = window.min(left - COMMON);
    // The type stands 4 octets after an offset. Two octets tell nearly every offset apart from a candidate's.
    let types = &stream[from + 5..from + 6 + distances];
    for (before, pair) in types.windows(2).enumerate() {
        if !(matches!(pair[1], 16 | 17) && pair[0] == 0) {
            continue;
        }
        let offset = from + 1 + before;
        if let Some(evidence) = row(stream, offset, at_least_one(asked)) {
            return Found { found: true, offset, evidence };
        }
    }
    Found::default()
}

/// One call of a walk. The walk is moved to where the answer ends.
pub fn step(stream: &[u8], walk: &mut Walk, window: usize, asked: u8) -> Event {
    let start = walk.position;
    if start > stream.len() {
        return Event::Beyond;
    }
    if walk.finished || start == stream.len() {
        walk.finished = true;
        return Event::End { offset: start };
    }
    let event = match judged(stream, start) {
        Judged::Passes(Frame { header, end, .. }) => {
            Event::Record { start, end, kind: header.kind, subtype: header.subtype }
        }
        Judged::Fails { refusal, end } => match aligned(stream, end, asked) {
            Tried { passed: true, confirmed } => Event::Gap { start, end, refusal, evidence: OWN_END, confirmed },
            _ => scanned(stream, start, window, asked, refusal),
        },
        Judged::Unframed(refusal) => scanned(stream, start, window, asked, refusal),
    };
    match event {
        Event::Record { end, .. } | Event::Gap { end, .. } => walk.position = end,
        _ => walk.finished = true,
    }
    event
}

/// What a scan makes of a record refused at `start`.
fn scanned(stream: &[u8], start: usize, window: usize, asked: u8, refusal: u8) -> Event {
    let Found { found, offset, evidence } = scan(stream, start, window, asked);
    if found {
        return Event::Gap { start, end: offset, refusal, evidence, confirmed: at_least_one(asked) };
    }
    let left = stream.len() - start;
    // n - p < W + 6, said without a sum that could pass the number's width.
    if window >= 1 && (left < 6 || left - 6 < window) {
        return Event::Gap { start, end: stream.len(), refusal, evidence: STREAM_END, confirmed: 0 };
    }
    Event::Window { start, window, refusal }
}
