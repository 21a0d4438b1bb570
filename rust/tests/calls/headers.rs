//! Headers, frames, judged records, and candidates.

use crate::{Random, keepalive, message, record, state_change};
use mrt::{Candidate, Evidence, Frame, Header, NewHeader, Record, Refusal, StoredLength, check_body};

/// The types whose header has microseconds.
const TIMED: [u16; 3] = [17, 33, 49];

/// Every call that reads at an offset gives this refusal.
fn all_refuse(stream: &[u8], at: usize, refusal: Refusal) {
    assert_eq!(Header::read(stream, at), Err(refusal));
    assert_eq!(Frame::read(stream, at), Err(refusal));
    assert_eq!(Record::read(stream, at), Err(refusal));
    let beyond = stream.len() < at;
    assert_eq!(Candidate::read(stream, at), if beyond { Err(Refusal::Beyond) } else { Ok(None) });
}

#[test]
fn an_offset_at_the_end_has_no_octets_left_and_one_past_it_is_beyond() {
    for n in [0, 5, 32] {
        let stream = &state_change()[..n];
        all_refuse(stream, n, Refusal::TruncatedHeader);
        all_refuse(stream, n + 1, Refusal::Beyond);
        all_refuse(stream, usize::MAX, Refusal::Beyond);
    }
}

#[test]
fn each_refusal_of_a_record_comes_in_its_order() {
    let mut unknown = record(14, 0, &[]);
    unknown[11] = 200;
    assert_eq!(Record::read(&[0; 11], 0), Err(Refusal::TruncatedHeader));
    assert_eq!(Record::read(&unknown, 0), Err(Refusal::UnknownType));
    for kind in TIMED {
        assert_eq!(Record::read(&record(kind, 0, &[0; 3]), 0), Err(Refusal::ShortLength));
        assert_eq!(Record::read(&record(kind, 0, &[0; 4])[..15], 0), Err(Refusal::TruncatedHeader));
        assert_eq!(Record::read(&record(kind, 0, &[0; 5])[..16], 0), Err(Refusal::TruncatedBody));
    }
    assert_eq!(Record::read(&record(48, 0, &[0; 4])[..15], 0), Err(Refusal::TruncatedBody));
    assert_eq!(Record::read(&record(33, 0, &[0; 4]), 0), Err(Refusal::NotCarried));
    assert_eq!(Record::read(&record(49, 0, &[0; 4]), 0), Err(Refusal::NotCarried));
    assert_eq!(Record::read(&record(13, 1, &[0; 8])[..19], 0), Err(Refusal::TruncatedBody));
    assert_eq!(Record::read(&record(11, 1, &[0; 8]), 0), Err(Refusal::NotCarried));
    assert_eq!(Record::read(&record(13, 6, &[0; 8]), 0), Err(Refusal::OtherSubtype));
    assert_eq!(Record::read(&record(13, 1, &[0; 7]), 0), Err(Refusal::BodyNotMet));
}

#[test]
fn a_frame_that_fills_the_stream_borrows_its_body() {
    let stream = [state_change(), record(12, 1, &[1, 2, 3])].concat();
    let frame = Frame::read(&stream, 32).unwrap();
    assert_eq!((frame.start, frame.end, frame.body), (32, stream.len(), &stream[44..]));
    let record = Record::read(&stream, 0).unwrap();
    assert_eq!((record.start, record.end, record.body), (0, 32, &stream[12..32]));
    assert_eq!(Ok(Frame::from(record)), Frame::read(&stream, 0));
    assert!(record.peer_index().is_none() && record.rib().is_none() && record.table_dump().is_none());
}

#[test]
fn microseconds_are_no_part_of_the_body() {
    for kind in (0..=13).chain([16, 17, 32, 33, 48, 49]) {
        let stream = record(kind, 9, &[0, 15, 66, 64, 7]);
        let frame = Frame::read(&stream, 0).unwrap();
        let Header { wire, stored, micros, .. } = frame.header;
        let (length, value) = if TIMED.contains(&kind) { (1, 1_000_000) } else { (5, 0) };
        assert_eq!((wire.0, stored.0, micros, frame.end), (5, length, value, 17));
        assert_eq!(frame.body, &stream[17 - length as usize..]);
    }
}

fn new_header(kind: u16, stored: u32, micros: u32) -> NewHeader {
    NewHeader { timestamp: 7, kind, subtype: 1, stored: StoredLength(stored), micros }
}

#[test]
fn a_refused_header_leaves_the_output() {
    let mut out = [0x5a; 40];
    for (header, room, refusal) in [
        (new_header(14, 0, 1), 0, Refusal::UnknownType),
        (new_header(16, 0, 1), 0, Refusal::TooLarge),
        (new_header(48, 0, 1), 0, Refusal::TooLarge),
        (new_header(17, 4_294_967_292, 0), 0, Refusal::TooLarge),
        (new_header(33, 4_294_967_292, 0), 0, Refusal::TooLarge),
        (new_header(49, 4_294_967_292, 0), 0, Refusal::TooLarge),
        (new_header(17, 4_294_967_291, 0), 15, Refusal::NoRoom),
        (new_header(33, 4_294_967_291, 0), 15, Refusal::NoRoom),
        (new_header(16, 0, 0), 11, Refusal::NoRoom),
        (new_header(16, 0, 0), 0, Refusal::NoRoom),
    ] {
        assert_eq!(header.write(&mut out[..room]), Err(refusal), "{header:?}");
        assert_eq!(out, [0x5a; 40]);
    }
}

#[test]
fn a_written_header_is_read_back_and_touches_nothing_else() {
    let mut random = Random(1);
    for kind in (0..=13).chain([16, 17, 32, 33, 48, 49]) {
        let timed = TIMED.contains(&kind);
        let micros = if timed { random.next() as u32 } else { 0 };
        let header = new_header(kind, random.next() as u32 >> 1, micros);
        let size = if timed { 16 } else { 12 };
        let mut out = [0x5a; 20];
        assert_eq!(header.write(&mut out), Ok(size));
        assert_eq!(Header::read(&out[..size], 0).map(NewHeader::from), Ok(header));
        assert!(out[size..].iter().all(|octet| *octet == 0x5a));
        let mut full = vec![0; size];
        assert_eq!(header.write(&mut full), Ok(size));
        assert_eq!(full, out[..size]);
    }
}

#[test]
fn a_candidate_has_microseconds_below_a_million_and_a_record_any() {
    let (under, over) = (keepalive(999_999, 19), keepalive(1_000_000, 19));
    let candidate = Candidate::read(&under, 0).unwrap().unwrap();
    assert_eq!((candidate.evidence, candidate.end), (Evidence::Marker, under.len()));
    assert_eq!(Candidate::read(&over, 0), Ok(None));
    assert!(Record::read(&under, 0).is_ok() && Record::read(&over, 0).is_ok());
    assert_eq!(Candidate::read(&state_change(), 0).unwrap().unwrap().evidence, Evidence::StateChange);
}

#[test]
fn records_of_types_5_12_and_13_pass_and_are_no_candidates() {
    let legacy = [(5, 1, 16), (5, 3, 10), (5, 5, 22), (5, 6, 14), (5, 7, 12)];
    for (kind, subtype, length) in legacy.into_iter().chain([(12, 1, 22), (13, 1, 8), (13, 2, 7)]) {
        let stream = record(kind, subtype, &vec![0; length]);
        assert!(Record::read(&stream, 0).is_ok());
        assert_eq!(Candidate::read(&stream, 0), Ok(None), "{kind}/{subtype}");
    }
}

#[test]
fn both_sides_of_the_body_checks() {
    let check = |body: &[u8], kind, subtype| check_body(body, kind, subtype, StoredLength(body.len() as u32));
    assert_eq!(check(&keepalive(0, 19)[16..], 17, 1), Ok(()));
    assert_eq!(check(&keepalive(0, 20)[16..], 17, 1), Err(Refusal::BodyNotMet));
    assert_eq!(check(&message(0, 1, 28)[16..], 17, 1), Err(Refusal::BodyNotMet));
    assert_eq!(check(&message(0, 1, 29)[16..], 17, 1), Ok(()));
    assert_eq!(check(&state_change()[12..], 16, 0), Ok(()));
    assert_eq!(check(&[&state_change()[12..], &[0]].concat(), 16, 0), Err(Refusal::BodyNotMet));
    assert_eq!(check(&[0; 12], 5, 7), Ok(()));
    assert_eq!(check(&[0; 13], 5, 7), Err(Refusal::BodyNotMet));
    assert_eq!(check(&[], 16, 2), Err(Refusal::OtherSubtype));
    assert_eq!(check(&[], 0, 0), Err(Refusal::NotCarried));
    assert_eq!(check(&[], 14, 0), Err(Refusal::UnknownType));
    // Of type 5 the stored length alone is looked at.
    assert_eq!(check_body(&[], 5, 7, StoredLength(12)), Ok(()));
}

#[test]
fn each_refusal_has_its_number_and_words_of_its_own() {
    use Refusal::*;
    let all = [TruncatedHeader, UnknownType, ShortLength, TruncatedBody, NotCarried, OtherSubtype, BodyNotMet];
    let all: Vec<_> = all.into_iter().chain([Beyond, NoRoom, TooLarge, WindowExhausted]).collect();
    assert!(all.iter().map(|refusal| refusal.number()).eq(1..=11));
    let words: std::collections::BTreeSet<_> = all.iter().map(Refusal::to_string).collect();
    assert_eq!(words.len(), 11);
}
