//! Candidates, the scan and the walk.

use super::record::{as_size, bgp4mp, header, is_state_change, judge, Record, Verdict, BGP4MP, BGP4MP_ET};

const MOST_STORED: u32 = 65_599;
const SECOND: u32 = 1_000_000;

pub enum Answer {
    Record { start: usize, record: Record },
    Gap { start: usize, end: usize, refusal: u8, evidence: u8, confirmed: u8 },
    End(usize),
    Window { start: usize, refusal: u8 },
}

/// A walk over a stream.
pub struct Walk<'a> {
    stream: &'a [u8],
    at: usize,
    finished: bool,
    window: usize,
    asked: u8,
}

impl<'a> Walk<'a> {
    pub fn new(stream: &'a [u8], window: usize, asked: u8) -> Self {
        Walk { stream, at: 0, finished: false, window, asked: asked.max(1) }
    }

    /// A walk that goes on.
    pub fn at(stream: &'a [u8], at: usize, finished: bool, window: usize, asked: u8) -> Self {
        Walk { at, finished, ..Walk::new(stream, window, asked) }
    }

    /// The position, and 1 where the walk is finished.
    pub fn place(&self) -> [u64; 2] {
        [self.at as u64, u64::from(self.finished)]
    }

    #[inline(always)]
    pub fn next(&mut self) -> Answer {
        let start = self.at;
        if self.finished || start == self.stream.len() {
            self.finished = true;
            return Answer::End(start);
        }
        match judge(self.stream, start) {
            Verdict::Fit(record) => {
                self.at = record.end;
                Answer::Record { start, record }
            }
            Verdict::Off { refusal, end } => self.resume(refusal, end),
            Verdict::Cut(refusal) => self.search(refusal),
        }
    }

    /// The record's own end, and then the scan.
    fn resume(&mut self, refusal: u8, end: usize) -> Answer {
        let start = self.at;
        match own_end(self.stream, end, self.asked) {
            Some(confirmed) => {
                self.at = end;
                Answer::Gap { start, end, refusal, evidence: 4, confirmed }
            }
            None => self.search(refusal),
        }
    }

    fn search(&mut self, refusal: u8) -> Answer {
        let start = self.at;
        if let Some((end, evidence)) = scan(self.stream, start, self.window, self.asked) {
            self.at = end;
            return Answer::Gap { start, end, refusal, evidence, confirmed: self.asked };
        }
        let left = self.stream.len() - start;
        if self.window >= 1 && left.saturating_sub(5) <= self.window {
            self.at = self.stream.len();
            return Answer::Gap { start, end: self.at, refusal, evidence: 5, confirmed: 0 };
        }
        self.finished = true;
        Answer::Window { start, refusal }
    }
}

/// How many records pass from an offset on, where the asked number pass or the stream ends between two.
fn own_end(stream: &[u8], from: usize, asked: u8) -> Option<u8> {
    let mut at = from;
    for passed in 0..asked {
        if at == stream.len() {
            return Some(passed);
        }
        let Verdict::Fit(record) = judge(stream, at) else {
            return None;
        };
        at = record.end;
    }
    Some(asked)
}

/// How many distances are looked at one by one before blocks are asked.
const NEAR: usize = 64;
const BLOCK: usize = 64;

/// The first offset after `from` where a row of candidates stands, with the first one's evidence.
fn scan(stream: &[u8], from: usize, window: usize, asked: u8) -> Option<(usize, u8)> {
    let distances = window.min((stream.len() - from).saturating_sub(12));
    // From the first distance's type on; at each distance there are eight octets.
    let types = stream.get(from + 5..from + 12 + distances)?;
    let mut passed = 0;
    while passed < distances {
        // The two type octets of each distance; nearly every one is passed over here, or in a block.
        let stop = distances.min(passed + NEAR);
        for (before, pair) in types[passed..stop + 1].windows(2).enumerate() {
            if pair[0] == 0 && matches!(pair[1], 16 | 17) {
                let offset = from + 1 + passed + before;
                if let Some(evidence) = row(stream, offset, asked) {
                    return Some((offset, evidence));
                }
            }
        }
        passed = stop;
        while let Some(block) = types[passed..].first_chunk::<{ BLOCK + 7 }>() {
            if marked(block) != 0 {
                break;
            }
            passed += BLOCK;
        }
    }
    None
}

/// How many of the block's distances have a type and a length that may be a candidate's, by four octets. None is left out, so that the
/// compiler takes sixteen at once.
#[inline(always)]
fn marked(block: &[u8; BLOCK + 7]) -> u8 {
    let mark = |i: usize| (block[i] == 0) & (block[i + 1] & 0xfe == 16) & (block[i + 4] == 0) & (block[i + 5] < 2);
    (0..BLOCK).map(|i| u8::from(mark(i))).sum()
}

/// The evidence of the first of `asked` candidates in a row. Out of line, which is faster.
#[inline(never)]
fn row(stream: &[u8], at: usize, asked: u8) -> Option<u8> {
    let (first, mut end) = candidate(stream, at)?;
    for _ in 1..asked {
        (_, end) = candidate(stream, end)?;
    }
    Some(if is_state_change(first) { 3 } else { 2 })
}

/// The subtype of the candidate at an offset, and where it ends.
#[inline(always)]
fn candidate(stream: &[u8], at: usize) -> Option<(u16, usize)> {
    let rest = stream.get(at..)?;
    let header = header(rest).ok()?;
    let carried = matches!(header.kind, BGP4MP | BGP4MP_ET) && as_size(header.subtype) != 0;
    if !carried || header.micros >= SECOND || header.stored > MOST_STORED {
        return None;
    }
    let size = if header.kind == BGP4MP_ET { 16 } else { 12 };
    let stored = header.stored as usize;
    let body = rest.get(size..size + stored)?;
    (bgp4mp(header.subtype, body) == 0).then_some((header.subtype, at + size + stored))
}
