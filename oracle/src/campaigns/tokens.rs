//! Every sequence of up to four pieces of an alphabet that makes interesting streams, with every window and number of
//! confirmations; and every sequence of five with one of these settings.

use super::{Put, ASKED, WINDOWS};
use crate::make;
use crate::question::Question;
use crate::random::Random;

/// One piece for each kind of judgement, and single octets that put all after them out of step.
fn alphabet() -> Vec<Vec<u8>> {
    vec![
        vec![0],
        vec![255],
        vec![0, 16],
        make::record(16, 0, &make::state_change_body(0, 1)),
        make::timed_record(17, 1, 1_000_000, &make::message_body(1, 1, 4, 19)),
        make::record(17, 4, &make::message_body(4, 2, 2, 23)),
        make::record(5, 3, &[0; 10]),
        make::record(13, 1, &[0; 8]),
        make::record(13, 2, &make::rib_head(0, 0, 0, 1)),
        make::record(12, 1, &make::table_dump(1, 32, &[])),
        make::header(0, 32, 0, 0),
        make::header(0, 13, 6, 0),
        make::header(0, 16, 1, 0),
        make::header(0, 14, 0, 0),
        make::header(0, 17, 0, 3),
        make::header(0, 33, 0, 0),
        make::header(0, 16, 0, 40),
    ]
}

pub fn run(put: Put, random: &mut Random) {
    let alphabet = alphabet();
    for length in 0..=4 {
        each_sequence(&alphabet, length, |stream| every_setting(put, stream));
    }
    each_sequence(&alphabet, 5, |stream| {
        let (window, asked) = (random.pick(&WINDOWS), random.pick(&ASKED));
        put(&Question::Walk { stream, window, asked });
    });
}

/// Every sequence of up to two pieces, with every setting.
pub fn short(put: Put) {
    let alphabet = alphabet();
    for length in 0..=2 {
        each_sequence(&alphabet, length, |stream| every_setting(put, stream));
    }
}

fn each_sequence(alphabet: &[Vec<u8>], length: u32, mut work: impl FnMut(&[u8])) {
    for number in 0..alphabet.len().pow(length) {
        work(&sequence(alphabet, number, length));
    }
}

/// The sequence whose pieces are the digits of a number.
fn sequence(alphabet: &[Vec<u8>], number: usize, length: u32) -> Vec<u8> {
    let base = alphabet.len();
    (0..length).flat_map(|digit| alphabet[number / base.pow(digit) % base].clone()).collect()
}

fn every_setting(put: Put, stream: &[u8]) {
    for asked in ASKED {
        for window in WINDOWS {
            put(&Question::Walk { stream, window, asked });
        }
        put(&Question::Aligned { stream, from: 0, asked });
        put(&Question::Scan { stream, from: 0, window: 100, asked });
    }
    put(&Question::Causes { stream, window: 100, asked: 1 });
}
