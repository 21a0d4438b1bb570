//! Long bodies: 65,535 octets of a legacy message, 65,579 of the longest BGP message, 65,599 of a candidate, and the
//! crate's limit of 16 MiB. Long rows: as many records as can be asked for.

use super::{Put, ASKED};
use crate::make;
use crate::question::Question;

const MIB_16: usize = 16 * 1024 * 1024;

pub fn run(put: Put) {
    long_rows(put);
    long_candidates(put);
    for size in [MIB_16 - 1, MIB_16, MIB_16 + 1] {
        long_bodies(put, size);
    }
}

fn walk(put: Put, stream: &[u8]) {
    for asked in ASKED {
        for window in [1, 7, 1 << 20, usize::MAX] {
            put(&Question::Walk { stream, window, asked });
        }
    }
    put(&Question::Causes { stream, window: 1 << 20, asked: 1 });
}

/// One record fewer than asked for, as many, and one more: of the types that a scan takes, and with type 5 after and
/// before them, which it passes over and a record's own end does not.
fn long_rows(put: Put) {
    let state = make::record(16, 0, &make::state_change_body(0, 1));
    let timed = make::record(17, 1, &make::message_body(1, 2, 4, 19));
    let legacy = make::record(5, 3, &[0; 10]);
    for count in [253, 254, 255, 256, 510] {
        let taken = [state.repeat(count - 1), timed.clone()].concat();
        let broken = [state.repeat(count / 2), legacy.repeat(count - count / 2)].concat();
        let passed_over = [&legacy[..], &taken].concat();
        for rows in [taken, broken, passed_over] {
            for before in [vec![0; 3], make::header(0, 32, 0, 0), make::header(0, 14, 0, 0)] {
                let stream = [&before[..], &rows].concat();
                for asked in [253, 254, 255] {
                    put(&Question::Walk { stream: &stream, window: 1 << 20, asked });
                    put(&Question::Walk { stream: &stream, window: 100, asked });
                }
            }
        }
    }
}

/// The record after a tear is as long as a candidate may be, and one octet longer. One of type 5 is none at any length.
fn long_candidates(put: Put) {
    let mut records = vec![
        make::record(16, 4, &make::message_body(4, 2, 2, 65_535)),
        make::record(17, 4, &make::message_body(4, 2, 2, 65_534)),
        make::record(16, 1, &make::message_body(1, 1, 3, 65_535)),
    ];
    for length in [65_534, 65_535, 65_536, 65_579, 65_598, 65_599, 65_600] {
        records.push(make::record(5, 1, &vec![0; length]));
        records.push(make::record(5, 6, &vec![0; length]));
        records.push(make::record(16, 4, &vec![255; length]));
        records.push(make::record(17, 5, &vec![0; length]));
    }
    for record in records {
        for count in [1, 3] {
            walk(put, &[vec![0; 3], record.repeat(count)].concat());
        }
        walk(put, &[make::header(0, 32, 0, 0), record.repeat(2)].concat());
        put(&Question::Candidate { stream: &record, at: 0 });
        put(&Question::Candidate { stream: &record[..record.len() - 1], at: 0 });
    }
}

/// A body of this size in each kind of place: first, last, confirming, cut by one octet.
fn long_bodies(put: Put, size: usize) {
    let state = make::record(16, 0, &make::state_change_body(0, 1)).repeat(3);
    for (kind, subtype) in [(32, 0), (33, 0), (13, 2), (13, 6), (16, 1), (5, 1), (14, 0), (17, 1)] {
        let long = make::record(kind, subtype, &vec![0; size]);
        for stream in [
            long.clone(),
            [long.clone(), state.clone()].concat(),
            [make::header(0, 32, 0, 0), long.clone()].concat(),
            long[..long.len() - 1].to_vec(),
        ] {
            put(&Question::Frame { stream: &stream, at: 0 });
            put(&Question::Judge { stream: &stream, at: 0 });
            put(&Question::Walk { stream: &stream, window: 100, asked: 3 });
            put(&Question::Walk { stream: &stream, window: 1 << 20, asked: 1 });
            put(&Question::Causes { stream: &stream, window: 1, asked: 1 });
        }
    }
}
