//! Missing rows, counted by sequence numbers.

use crate::{keepalive, record, state_change};
use mrt::{Counters, Evidence, Item, Record, Walk};

/// The subtypes of type 13 that are rows.
const RIBS: [u16; 8] = [2, 3, 4, 5, 8, 9, 10, 11];

/// A row with this sequence number: of type 13 with no entry, or of type 12 in a view that is not 0 with no attributes.
pub fn row(kind: u16, subtype: u16, number: u32) -> Vec<u8> {
    let (mut body, rest) = match (kind, subtype) {
        (13, _) => (number.to_be_bytes().to_vec(), 3),
        _ => ((number | 0xf1f2_0000).to_be_bytes().to_vec(), if subtype == 1 { 18 } else { 42 }),
    };
    body.resize(4 + rest, 0);
    record(kind, subtype, &body)
}

fn peer_table() -> Vec<u8> {
    record(13, 1, &[0; 8])
}

/// What the record at the front of a stream tells: missing rows, and whether it repeats.
fn count(counters: &mut Counters, stream: &[u8]) -> Option<(u32, bool)> {
    let record = Record::read(stream, 0).unwrap();
    counters.count(&record).map(|missing| (missing.rows, missing.repeat))
}

/// What the later of two rows tells.
fn between(kind: u16, earlier: u32, later: u32) -> Option<(u32, bool)> {
    let mut counters = Counters::new();
    assert_eq!(count(&mut counters, &row(kind, 2, earlier)), None);
    count(&mut counters, &row(kind, 2, later))
}

/// Both ends and the middle of numbers up to this one.
fn turns_over(kind: u16, most: u32) {
    let middle = most / 2;
    for (earlier, later, missing) in [
        (0, 1, 0),
        (0, 2, 1),
        (0, middle, middle - 1),
        (0, most, most - 1),
        (middle, middle + 1, 0),
        (middle, most, middle),
        (most - 1, most, 0),
        (most, 0, 0),
        (most, 1, 1),
        (most - 1, 0, 1),
        (middle + 1, middle - 1, most - 2),
        (1, 0, most - 1),
        (most, most - 1, most - 1),
    ] {
        assert_eq!(between(kind, earlier, later), Some((missing, false)), "{kind}: {earlier}, {later}");
    }
}

#[test]
fn a_difference_turns_over_at_the_width() {
    turns_over(13, u32::MAX);
    turns_over(12, 65_535);
    assert_eq!(between(13, 65_535, 65_536), Some((0, false)));
    assert_eq!(between(13, 65_535, 0), Some((4_294_901_760, false)));
}

#[test]
fn a_repeat_misses_nothing() {
    for (kind, number) in [(13, 0), (13, 1 << 31), (13, u32::MAX), (12, 0), (12, 1 << 15), (12, 65_535)] {
        assert_eq!(between(kind, number, number), Some((0, true)), "{kind}: {number}");
    }
    // Type 13 has more than the 16 bits that are the same here.
    assert_eq!(between(13, 7, 65_543), Some((65_535, false)));
}

/// The type has one counter. The last number is the earlier one, also after a repeat and after a fall.
#[test]
fn a_change_of_subtype_keeps_the_counter() {
    let mut counters = Counters::new();
    assert_eq!(count(&mut counters, &row(13, 2, 0)), None);
    for (number, subtype) in (2..).step_by(2).zip(RIBS) {
        assert_eq!(count(&mut counters, &row(13, subtype, number)), Some((1, false)), "{subtype}");
        assert_eq!(count(&mut counters, &row(13, subtype, number)), Some((0, true)), "{subtype}");
    }
    assert_eq!(count(&mut counters, &row(13, 2, 15)), Some((u32::MAX - 1, false)));
    assert_eq!(count(&mut counters, &row(13, 2, 16)), Some((0, false)));
    assert_eq!(count(&mut counters, &row(12, 1, 9)), None);
    assert_eq!(count(&mut counters, &row(12, 2, 12)), Some((2, false)));
    assert_eq!(count(&mut counters, &row(12, 1, 13)), Some((0, false)));
}

#[test]
fn the_two_types_are_counted_apart() {
    let mut counters = Counters::new();
    assert_eq!(count(&mut counters, &row(13, 2, 70_000)), None);
    assert_eq!(count(&mut counters, &row(12, 1, 5)), None);
    assert_eq!(count(&mut counters, &row(13, 2, 70_001)), Some((0, false)));
    assert_eq!(count(&mut counters, &row(12, 1, 4)), Some((65_534, false)));
    assert_eq!(count(&mut counters, &row(13, 2, 70_003)), Some((1, false)));
}

#[test]
fn a_peer_table_starts_both_counts_afresh() {
    let mut counters = Counters::new();
    count(&mut counters, &row(13, 2, 5));
    count(&mut counters, &row(12, 1, 5));
    assert_ne!(counters, Counters::new());
    assert_eq!(count(&mut counters, &peer_table()), None);
    assert_eq!(counters, Counters::new());
    assert_eq!((count(&mut counters, &row(12, 1, 9)), count(&mut counters, &row(13, 2, 9))), (None, None));
    assert_eq!(count(&mut counters, &row(13, 2, 11)), Some((1, false)));
}

#[test]
fn records_that_are_no_rows_leave_the_counters() {
    let mut counters = Counters::default();
    count(&mut counters, &row(13, 2, 5));
    count(&mut counters, &row(12, 1, 5));
    let before = counters;
    for other in [state_change(), keepalive(0, 19), record(5, 7, &[0; 12]), record(5, 3, &[1; 10])] {
        assert_eq!(count(&mut counters, &other), None);
        assert_eq!(counters, before);
    }
}

/// What each record of a stream tells, by counters that go on.
fn told(counters: &mut Counters, stream: &[u8]) -> Vec<Option<u32>> {
    let items = Walk::new(stream).map(Result::unwrap);
    let records = items.filter_map(|item| match item {
        Item::Record(record) => Some(record),
        Item::Gap(_) => None,
    });
    records.map(|record| counters.count(&record).map(|missing| missing.rows)).collect()
}

#[test]
fn a_refused_row_leaves_a_gap_and_is_missing() {
    let refused = record(13, 2, &[0, 0, 0, 8, 33, 0, 0]);
    let stream = [row(13, 2, 6), row(13, 4, 7), refused, row(13, 4, 9), row(13, 2, 10)].concat();
    let Some(Ok(Item::Gap(gap))) = Walk::new(&stream).nth(2) else { panic!("no gap") };
    assert_eq!((gap.start, gap.end, gap.evidence), (38, 57, Evidence::OwnEnd));
    assert_eq!(told(&mut Counters::new(), &stream), [None, Some(0), Some(1), Some(0)]);
}

#[test]
fn counters_survive_a_change_of_stream() {
    let (first, second) = ([row(13, 2, 6), row(13, 2, 7)].concat(), [row(13, 2, 11), row(13, 2, 12)].concat());
    let mut counters = Counters::new();
    assert_eq!(told(&mut counters, &first), [None, Some(0)]);
    assert_eq!(told(&mut counters, &second), [Some(3), Some(0)]);
    assert_eq!(told(&mut Counters::new(), &second), [None, Some(0)]);
}
