//! Single records: every type and subtype of interest with bodies around each bound, judged, framed, and tried as
//! candidates and as the record that a walk meets first.

use super::{Put, ASKED, WINDOWS};
use crate::make;
use crate::question::Question;

pub fn run(put: Put) {
    headers_and_bodies(put);
    legacy_lengths(put);
    for subtype in 0..=13 {
        for family in 0..=3 {
            envelopes(put, subtype, family);
        }
    }
    markers(put);
    microseconds(put);
    for subtype in 0..=3 {
        table_dumps(put, subtype);
    }
}

/// One record and what a candidate and a walk make of it.
fn all_about(put: Put, stream: &[u8]) {
    put(&Question::Judge { stream, at: 0 });
    put(&Question::Frame { stream, at: 0 });
    put(&Question::Candidate { stream, at: 0 });
}

/// Every short header with every short body of one octet's value.
fn headers_and_bodies(put: Put) {
    for kind in (0..=18).chain([31, 32, 33, 34, 47, 48, 49, 50, 255, 256, 261, 272, 65_535]) {
        for subtype in [0, 1, 2, 3, 5, 7, 8, 12, 256] {
            for wire in 0..=26 {
                for body in 0..=27 {
                    let mut stream = make::header(0, kind, subtype, wire);
                    stream.extend(vec![0; body]);
                    put(&Question::Judge { stream: &stream, at: 0 });
                    put(&Question::Candidate { stream: &stream, at: 0 });
                    put(&Question::Walk { stream: &stream, window: 7, asked: 1 });
                    put(&Question::Causes { stream: &stream, window: 1, asked: 3 });
                }
            }
        }
    }
}

fn legacy_lengths(put: Put) {
    for subtype in 0..=9 {
        for length in (0..=24).chain([4_088, 4_089, 4_090, 65_534, 65_535, 65_536, 65_599, 65_600]) {
            all_about(put, &make::record(5, subtype, &vec![0xff; length]));
        }
    }
}

/// Messages of every type and of lengths around the shortest, cut at every octet and with one octet too many.
fn envelopes(put: Put, subtype: u16, family: u16) {
    for bgp in 0..=5 {
        for length in (19..=24).chain(28..=30) {
            let mut body = make::message_body(subtype, family, bgp, length);
            body.push(0);
            for cut in 0..=body.len() {
                all_about(put, &make::record(16, subtype, &body[..cut]));
            }
        }
        for length in [18, 4_095, 4_096, 4_097, 65_534, 65_535] {
            all_about(put, &make::record(17, subtype, &make::message_body(subtype, family, bgp, length)));
        }
    }
    let mut body = make::state_change_body(subtype, family);
    body.push(0);
    for cut in 0..=body.len() {
        let stream = make::record(17, subtype, &body[..cut]).repeat(2);
        all_about(put, &stream);
        for asked in ASKED {
            for window in WINDOWS {
                put(&Question::Walk { stream: &stream, window, asked });
            }
        }
    }
}

/// One octet of the marker or of the message's length is another.
fn markers(put: Put) {
    for subtype in make::MESSAGES {
        for family in [1, 2] {
            let body = make::message_body(subtype, family, 4, 19);
            for back in 1..=19 {
                for octet in [0, 1, 18, 19, 20, 254] {
                    let mut body = body.clone();
                    let at = body.len() - back;
                    body[at] = octet;
                    all_about(put, &make::record(16, subtype, &body));
                }
            }
        }
    }
}

fn microseconds(put: Put) {
    for kind in make::TIMED {
        microseconds_of(put, kind);
    }
}

fn microseconds_of(put: Put, kind: u16) {
    for micros in [0, 999_998, 999_999, 1_000_000, 1_000_001, u32::MAX] {
        let one = make::timed_record(kind, 0, micros, &make::state_change_body(0, 1));
        all_about(put, &one);
        let torn = [vec![0; 5], one.repeat(3)].concat();
        for asked in ASKED {
            put(&Question::Walk { stream: &torn, window: 100, asked });
        }
    }
}

/// Cut at every octet and with one too many, and with every number of prefix bits.
fn table_dumps(put: Put, subtype: u16) {
    let mut body = make::table_dump(subtype, 24, &[64, 1, 1]);
    body.push(0);
    for cut in 0..=body.len() {
        all_about(put, &make::record(12, subtype, &body[..cut]));
        put(&Question::TableDumpRead { subtype, body: &body[..cut] });
    }
    for bits in 0..=255 {
        let body = make::table_dump(subtype, bits, &[]);
        all_about(put, &make::record(12, subtype, &body));
        put(&Question::TableDumpRead { subtype, body: &body });
    }
}
