//! Judgement, body checks and candidates: each bound of 01's body checks from both sides, and refusals in their order.

use super::super::Put;
use crate::make;
use crate::question::Question;

pub fn run(put: Put) {
    order(put);
    bodies(put);
    legacy(put);
    for subtype in 0..=12 {
        state_changes(put, subtype);
        messages(put, subtype);
    }
    message_lengths(put);
    markers(put);
    microseconds(put);
    lengths_with_microseconds(put);
    table_dumps(put);
    offsets(put);
}

fn all_about(put: Put, stream: &[u8]) {
    at(put, stream, 0);
}

fn at(put: Put, stream: &[u8], at: usize) {
    put(&Question::Judge { stream, at });
    put(&Question::Candidate { stream, at });
}

/// Type 16 and its like with a body that is cut: 4 before 5, 6 and 7; 5 before 6; 6 before 7.
fn order(put: Put) {
    for kind in [0, 5, 12, 13, 14, 16, 17, 33, 48, 49] {
        for subtype in [0, 1, 2, 3, 6, 7, 12, 99] {
            for body in [0, 7] {
                let record = make::record(kind, subtype, &vec![0; body]);
                all_about(put, &record);
                if body > 0 {
                    all_about(put, &record[..record.len() - 1]);
                }
            }
        }
    }
}

/// A body by itself, with a stored length that is not its own: an unknown type comes before all else, and of type 5 that
/// length alone decides.
fn bodies(put: Put) {
    for kind in (0..=18).chain([31, 32, 33, 34, 47, 48, 49, 50, 65_535]) {
        for (subtype, stored) in [(0, 0), (1, 16), (7, 12), (7, u32::MAX), (99, 0)] {
            put(&Question::BodyCheck { kind, subtype, stored, body: &[] });
            put(&Question::BodyCheck { kind, subtype, stored, body: &[0; 8] });
        }
    }
}

/// Of type 5 no candidate stands, whole or not.
fn legacy(put: Put) {
    let bounds = [(1, 16), (1, 65_535), (3, 10), (5, 22), (5, 4_089), (6, 14), (6, 65_535), (7, 12)];
    for (subtype, bound) in bounds {
        for length in [bound - 1, bound, bound + 1] {
            let record = make::record(5, subtype, &vec![0xff; length]);
            all_about(put, &record);
            put(&Question::Candidate { stream: &record[..record.len() - 1], at: 0 });
        }
    }
    for subtype in [0, 2, 4, 8] {
        all_about(put, &make::record(5, subtype, &[0; 20]));
    }
}

fn state_changes(put: Put, subtype: u16) {
    for family in 0..=3 {
        let mut body = make::state_change_body(subtype, family);
        body.push(0);
        for length in [body.len() - 2, body.len() - 1, body.len()] {
            all_about(put, &make::record(if family == 2 { 17 } else { 16 }, subtype, &body[..length]));
        }
    }
}

/// The shortest message of each type and an OPEN of a header alone, with an octet fewer and one more, as the length says
/// and not.
fn messages(put: Put, subtype: u16) {
    let kinds: &[(u8, u16)] =
        if subtype == 1 { &[(0, 19), (1, 19), (1, 29), (2, 23), (3, 21), (4, 19), (5, 19)] } else { &[(4, 19)] };
    for &(bgp, length) in kinds {
        for length in [length - 1, length, length + 1] {
            let mut body = make::message_body(subtype, 1, bgp, length);
            all_about(put, &make::record(16, subtype, &body));
            body.push(0);
            all_about(put, &make::record(16, subtype, &body));
        }
    }
}

fn message_lengths(put: Put) {
    for (bgp, length) in [(1, 4_095), (1, 4_096), (1, 4_097), (2, 65_534), (2, 65_535), (3, 65_535), (4, 65_535)] {
        for (subtype, family) in [(1, 1), (4, 2)] {
            all_about(put, &make::record(16, subtype, &make::message_body(subtype, family, bgp, length)));
        }
    }
}

/// One octet of the marker is another, or the body breaks off before it is whole.
fn markers(put: Put) {
    let body = make::message_body(1, 1, 4, 19);
    for octet in [16, 31, 32, 33] {
        let mut other = body.clone();
        other[octet] ^= 1;
        all_about(put, &make::record(16, 1, &other));
    }
    for length in [0, 7, 8, 15, 16, 34, 35] {
        all_about(put, &make::record(16, 1, &body[..length]));
    }
    // an UPDATE that says one octet fewer than it has, as many, and one more
    for said in [29, 30, 31] {
        let mut update = make::message_body(1, 1, 2, 30);
        update[33] = said;
        all_about(put, &make::record(16, 1, &update));
    }
}

fn microseconds(put: Put) {
    for micros in [0, 999_999, 1_000_000, u32::MAX] {
        all_about(put, &make::timed_record(17, 1, micros, &make::message_body(1, 1, 4, 19)));
        all_about(put, &make::timed_record(17, 0, micros, &make::state_change_body(0, 2)));
    }
}

/// A wire length under 4, then under 16 octets, then a cut body, then the type or the body; 48 has no microseconds.
fn lengths_with_microseconds(put: Put) {
    for kind in [17, 33, 48, 49] {
        for wire in 0..=5 {
            let stream = [make::header(7, kind, 0, wire), vec![0; 5]].concat();
            for length in 11..=stream.len() {
                put(&Question::Judge { stream: &stream[..length], at: 0 });
            }
        }
    }
}

/// A body that is cut by the stream comes before a subtype that is not carried. No candidate stands, whole or not.
fn table_dumps(put: Put) {
    for subtype in [0, 1, 2, 3] {
        let body = make::table_dump(subtype, 24, &[64, 1, 1]);
        for length in [body.len() - 1, body.len()] {
            let record = make::record(12, subtype, &body[..length]);
            all_about(put, &record);
            all_about(put, &record[..record.len() - 1]);
        }
        for bits in [32, 33, 128, 129] {
            all_about(put, &make::record(12, subtype, &make::table_dump(subtype, bits, &[])));
        }
    }
}

/// An offset beyond the stream comes before all else.
fn offsets(put: Put) {
    let stream = make::record(16, 0, &make::state_change_body(0, 1)).repeat(2);
    let n = stream.len();
    for offset in [1, 32, n - 12, n - 11, n, n + 1, usize::MAX] {
        at(put, &stream, offset);
    }
}
