//! Walks and scans over whole streams.

use crate::expert::walk::{Answer, Walk};
use crate::expert::{record, walled};
use crate::measure::Work;
use bgpkit_part::models::CommonHeader;
use bgpkit_part::parser::iters::recovery::{RecoveringRecordIterator, RecoveryConfig, RecoveryEvent};
use bgpkit_part::parser::BgpkitParser;
use mrt_oracle::exports;

/// What a walk has said, in two numbers: the records and gaps, each with its places and what every side says of it; and
/// the refusals of the gaps, for which the crate has only words.
#[derive(Default)]
struct Said {
    sum: u64,
    refusals: u64,
}

/// A record's offsets and the fields of its header.
struct Record {
    start: u64,
    body: u64,
    end: u64,
    timestamp: u64,
    kind: u64,
    subtype: u64,
    micros: u64,
}

impl Said {
    #[inline(always)]
    fn record(&mut self, record: Record) {
        let Record { start, body, end, timestamp, kind, subtype, micros } = record;
        let place = start ^ body << 10 ^ end << 20;
        self.sum = self.sum.wrapping_add(place ^ timestamp << 8 ^ kind << 40 ^ subtype << 48 ^ micros << 30);
    }

    #[inline(always)]
    fn gap(&mut self, start: u64, end: u64, evidence: u64, confirmed: u64) {
        let gap = start << 3 ^ end << 24 ^ evidence << 50 ^ confirmed << 56;
        self.sum = self.sum.wrapping_add(gap.rotate_left(9));
    }

    fn refused(&mut self, start: u64, refusal: u64) {
        self.refusals = self.refusals.wrapping_add((start + 1) * refusal);
    }

    /// The end, or where a scan's window was exhausted.
    fn last(mut self, at: u64) -> Self {
        self.sum = self.sum.wrapping_add(at.rotate_left(31));
        self
    }
}

/// A walk over the whole stream by each side.
pub fn walk<'a>(name: &str, stream: &'a [u8], window: usize, asked: u8) -> Work<'a> {
    let (by_ours, by_expert) = (ours(stream, window, asked), expert(stream, window, asked));
    assert_eq!(by_ours.refusals, by_expert.refusals, "{name}: the refusals of the gaps");
    Work {
        name: name.to_string(),
        by_crate: Some(Box::new(move || by_crate(stream, window, asked).sum)),
        expert: Box::new(move || expert(stream, window, asked).sum),
        walled: Some(Box::new(move || walled(stream, window, asked).sum)),
        ours: Box::new(move || ours(stream, window, asked).sum),
    }
}

/// How many records are asked for by one call.
const ROWS: usize = 16;

/// Records by the call that hands out many; what is no record, by the walk's own call.
#[inline(always)]
fn by_calls(
    stream: &[u8],
    records: impl Fn(&[u8], &mut [u64; 2], &mut [[u64; 10]]) -> usize,
    next: impl Fn(&[u8], &mut [u64; 2], &mut [u64; 10]),
) -> Said {
    let mut said = Said::default();
    let (mut walk, mut rows, mut out) = ([0; 2], [[0; 10]; ROWS], [0; 10]);
    loop {
        let count = records(stream, &mut walk, &mut rows);
        for &[_, start, timestamp, kind, subtype, _, _, micros, body, end] in &rows[..count] {
            said.record(Record { start, body, end, timestamp, kind, subtype, micros });
        }
        if count == ROWS {
            continue;
        }
        next(stream, &mut walk, &mut out);
        let [answer, start, end, refusal, evidence, confirmed, ..] = out;
        match answer {
            2 => {
                said.gap(start, end, evidence, confirmed);
                said.refused(start, refusal);
            }
            3 => return said.last(start),
            _ => {
                said.refused(start, refusal);
                return said.last(start);
            }
        }
    }
}

fn ours(stream: &[u8], window: usize, asked: u8) -> Said {
    let records = |stream: &[u8], walk: &mut _, rows: &mut [_]| exports::records(stream, walk, rows).count as usize;
    by_calls(stream, records, |stream, walk, out| {
        exports::next(stream, walk, window, asked, out);
    })
}

/// The expert's calls behind the same wall.
fn walled(stream: &[u8], window: usize, asked: u8) -> Said {
    by_calls(stream, walled::records, |stream, walk, out| walled::next(stream, walk, window, asked, out))
}

fn expert(stream: &[u8], window: usize, asked: u8) -> Said {
    let mut said = Said::default();
    let mut walk = Walk::new(stream, window, asked);
    loop {
        match walk.next() {
            Answer::Record { start, record } => said.record(by_header(start as u64, record)),
            Answer::Gap { start, end, refusal, evidence, confirmed } => {
                said.gap(start as u64, end as u64, u64::from(evidence), u64::from(confirmed));
                said.refused(start as u64, u64::from(refusal));
            }
            Answer::End(at) => return said.last(at as u64),
            Answer::Window { start, refusal } => {
                said.refused(start as u64, u64::from(refusal));
                return said.last(start as u64);
            }
        }
    }
}

#[inline(always)]
fn by_header(start: u64, record: record::Record) -> Record {
    let header = record.header;
    Record {
        start,
        body: record.body as u64,
        end: record.end as u64,
        timestamp: u64::from(header.timestamp),
        kind: u64::from(header.kind),
        subtype: u64::from(header.subtype),
        micros: u64::from(header.micros),
    }
}

fn by_crate(stream: &[u8], window: usize, asked: u8) -> Said {
    let mut said = Said::default();
    let mut at = 0;
    for event in crate_walk(stream, window, asked) {
        match event {
            Ok(RecoveryEvent::Item(record)) => {
                let record = of_crate(at, &record.common_header);
                at = record.end;
                said.record(record);
            }
            Ok(RecoveryEvent::Gap(gap)) => {
                let evidence = mrt_oracle::oracle::evidence_number(gap.evidence);
                said.gap(gap.start_offset, gap.end_offset, u64::from(evidence), u64::from(gap.confirmed_records));
                at = gap.end_offset;
            }
            Err(error) => return said.last(error.offset),
        }
    }
    said.last(at)
}

fn crate_walk(stream: &[u8], window: usize, asked: u8) -> RecoveringRecordIterator<&[u8]> {
    let config = RecoveryConfig::default().with_max_scan_bytes(window).with_confirmation_records(asked);
    BgpkitParser::from_reader(stream).into_recovering_record_iter(config)
}

/// The crate hands out no offsets: a record starts where the answer before it ended.
fn of_crate(start: u64, header: &CommonHeader) -> Record {
    let body = start + if header.microsecond_timestamp.is_some() { 16 } else { 12 };
    Record {
        start,
        body,
        end: body + u64::from(header.length),
        timestamp: u64::from(header.timestamp),
        kind: header.entry_type as u64,
        subtype: u64::from(header.entry_subtype),
        micros: u64::from(header.microsecond_timestamp.unwrap_or(0)),
    }
}
