//! Walks over short streams, with every window and number of confirmations, and single calls from every kind of place.

use super::super::{Put, ASKED, WINDOWS};
use crate::answers::Walk;
use crate::make;
use crate::question::Question;

pub fn run(put: Put) {
    for stream in [streams(), with_type_5()].concat() {
        for window in WINDOWS {
            for asked in ASKED {
                put(&Question::Walk { stream: &stream, window, asked });
            }
        }
        places(put, &stream);
    }
    for length in [1, 5, 6, 7, 8, 11, 12, 13] {
        for window in [0, 1, 2, 7] {
            put(&Question::Walk { stream: &vec![0; length], window, asked: 1 });
        }
    }
}

/// One for each way to go on: by the record's own end, by a scan of each evidence, to the end, and not at all.
fn streams() -> Vec<Vec<u8>> {
    let state = make::record(16, 0, &make::state_change_body(0, 1));
    let message = make::timed_record(17, 1, 999_999, &make::message_body(1, 1, 4, 19));
    let late = make::timed_record(17, 1, 1_000_000, &make::message_body(1, 1, 4, 19));
    let table = make::record(13, 1, &[0; 8]);
    let broken = make::record(13, 1, &[0; 7]);
    let torn = vec![0; 5];
    let dump = make::record(12, 1, &make::table_dump(1, 24, &[]));
    let wide = make::record(12, 2, &make::table_dump(2, 64, &[7]));
    let cut = make::record(12, 1, &make::table_dump(1, 24, &[])[..21]);
    let open = make::record(16, 1, &make::message_body(1, 1, 1, 29));
    let short = make::record(16, 1, &make::message_body(1, 1, 1, 28));
    let timed = make::record(33, 0, &[0; 3]);
    let no_micros = [make::header(0, 33, 0, 3), vec![0; 3]].concat();
    vec![
        Vec::new(),
        [&state[..], &broken, &state].concat(),
        [&broken[..], &state, &table].concat(),
        [&torn[..], &state, &message, &state].concat(),
        [&torn[..], &table, &state].concat(),
        [&broken[..], &torn, &late, &message].concat(),
        [&state[..], &make::header(0, 16, 0, 40), &[0; 3]].concat(),
        [make::header(0, 14, 0, 0), state.repeat(2)].concat(),
        [&dump[..], &wide, &cut, &wide, &dump].concat(),
        [&broken[..], &dump, &wide, &dump[..dump.len() - 1]].concat(),
        [&torn[..], &dump, &dump, &dump].concat(),
        [&cut[..], &torn, &wide, &state, &state].concat(),
        [&open[..], &short, &open].concat(),
        [&torn[..], &short, &open, &state].concat(),
        [&timed[..], &state, &make::record(49, 1, &[]), &state].concat(),
        [&torn[..], &timed, &state, &state].concat(),
        [&no_micros[..], &state, &state].concat(),
        [&state[..], &make::header(0, 49, 0, 0), &state].concat(),
        [&state[..], &make::header(0, 33, 0, 4), &[0; 3]].concat(),
        [&state[..], &make::header(0, 49, 0, u32::MAX)].concat(),
    ]
}

/// Type 5 is walked and confirms at a record's own end. A scan passes over it, and it breaks a row of candidates.
fn with_type_5() -> Vec<Vec<u8>> {
    let state = make::record(16, 0, &make::state_change_body(0, 1));
    let message = make::timed_record(17, 1, 999_999, &make::message_body(1, 1, 4, 19));
    let legacy = make::record(5, 3, &[0; 10]);
    let broken = make::record(13, 1, &[0; 7]);
    let torn = vec![0; 5];
    vec![
        make::LEGACY.iter().flat_map(|&(subtype, length)| make::record(5, subtype, &vec![0; length])).collect(),
        [torn.clone(), legacy.repeat(3)].concat(),
        [&torn[..], &legacy, &legacy, &state, &message, &state].concat(),
        [&torn[..], &legacy, &message, &state].concat(),
        [&torn[..], &message, &state, &legacy].concat(),
        [&torn[..], &state, &legacy, &message, &state].concat(),
        [broken.clone(), legacy.repeat(3)].concat(),
        [&make::header(0, 32, 0, 0)[..], &legacy, &state, &legacy].concat(),
        [broken, torn, legacy.repeat(3)].concat(),
    ]
}

/// Calls at, before and beyond the end, finished and not.
fn places(put: Put, stream: &[u8]) {
    let n = stream.len();
    for position in [0, 1, n.saturating_sub(12), n.saturating_sub(1), n, n + 1, usize::MAX] {
        for finished in [false, true] {
            for window in [0, 7, usize::MAX] {
                put(&Question::Step { stream, walk: Walk { position, finished }, window, asked: 1 });
            }
        }
    }
}
