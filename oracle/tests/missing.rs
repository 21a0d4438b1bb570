//! Document 02, wish 5: rows missing between two records, computed by hand.

use mrt_oracle::answers::{Counted, Counters, Missing};
use mrt_oracle::question::{Question, Reply};
use mrt_oracle::reading::count_missing;
use mrt_oracle::{listing, make, rules};

const NONE: Counters = Counters { table_seen: false, table: 0, dump_seen: false, dump: 0 };
/// Numbers of both types, far from those of the cases.
const BOTH: Counters = Counters { table_seen: true, table: 0x0a0b_0c0d, dump_seen: true, dump: 0x0e0f };

/// Earlier, later, missing, repeat: of 16 bits, and of 32.
const OF_16: [(u16, u16, u32, bool); 9] = [
    (7, 8, 0, false),
    (7, 10, 2, false),
    (7, 7, 0, true),
    (65_535, 0, 0, false),
    (65_535, 2, 2, false),
    (0, 65_535, 65_534, false),
    (65_535, 65_535, 0, true),
    (8, 7, 65_534, false),
    (0, 32_768, 32_767, false),
];
const OF_32: [(u32, u32, u32, bool); 10] = [
    (7, 8, 0, false),
    (7, 10, 2, false),
    (7, 7, 0, true),
    (65_535, 65_536, 0, false),
    (65_536, 0, 4_294_901_759, false),
    (4_294_967_295, 0, 0, false),
    (4_294_967_295, 2, 2, false),
    (0, 4_294_967_295, 4_294_967_294, false),
    (4_294_967_295, 4_294_967_295, 0, true),
    (8, 7, 4_294_967_294, false),
];

/// A TABLE_DUMP body of this view and sequence number.
fn dump(subtype: u16, view: u16, sequence: u16) -> Vec<u8> {
    let mut body = make::table_dump(subtype, 24, &[]);
    body[..2].copy_from_slice(&view.to_be_bytes());
    body[2..4].copy_from_slice(&sequence.to_be_bytes());
    body
}

fn rib(sequence: u32) -> Vec<u8> {
    make::rib_head(sequence, 8, 10, 0)
}

#[test]
fn a_number_of_16_bits_turns_over_at_its_width() {
    for (earlier, later, missing, repeat) in OF_16 {
        let before = Counters { dump: earlier, ..BOTH };
        let counted = Counted { counters: Counters { dump: later, ..BOTH }, told: Some(Missing { missing, repeat }) };
        for (subtype, view) in [(1, 0), (2, 65_535), (0, 1), (65_535, 9)] {
            assert_eq!(count_missing(before, 12, subtype, &dump(subtype, view, later)), counted);
        }
    }
}

#[test]
fn a_number_of_32_bits_turns_over_at_its_width() {
    for (earlier, later, missing, repeat) in OF_32 {
        let before = Counters { table: earlier, ..BOTH };
        let counted = Counted { counters: Counters { table: later, ..BOTH }, told: Some(Missing { missing, repeat }) };
        for subtype in make::RIBS {
            assert_eq!(count_missing(before, 13, subtype, &rib(later)), counted);
        }
    }
}

#[test]
fn the_first_row_of_a_type_is_told_nothing_of() {
    let unseen = Counters { table_seen: false, dump_seen: false, ..BOTH };
    for before in [NONE, unseen] {
        let counters = Counters { table_seen: true, table: 5, ..before };
        assert_eq!(count_missing(before, 13, 2, &rib(5)), Counted { counters, told: None });
        let counters = Counters { dump_seen: true, dump: 5, ..before };
        assert_eq!(count_missing(before, 12, 1, &dump(1, 0, 5)), Counted { counters, told: None });
    }
}

#[test]
fn what_is_no_row_changes_nothing() {
    let same = Counted { counters: BOTH, told: None };
    for (kind, subtype) in [(13, 0), (13, 6), (13, 7), (13, 12), (13, 65_535), (11, 2), (14, 2), (16, 2), (65_535, 2)] {
        assert_eq!(count_missing(BOTH, kind, subtype, &rib(5)), same);
    }
    let bodies = [12, 13].map(|kind| [3, 4].map(|length| count_missing(BOTH, kind, 2, &rib(5)[..length]) == same));
    assert_eq!(bodies, [[true, false], [true, false]]);
}

#[test]
fn a_peer_table_clears_both_counters() {
    for body in [&[][..], &make::peer_table(b"", 0, &[])] {
        assert_eq!(count_missing(BOTH, 13, 1, body), Counted { counters: NONE, told: None });
    }
}

/// The lines of a listing between its first and its last.
fn listed(records: &[Vec<u8>]) -> Vec<String> {
    let lines = listing::lines(&records.concat(), 1 << 20, 3);
    lines[1..lines.len() - 1].iter().map(|line| line.replace('\t', " ")).collect()
}

/// Rows of 20 octets, and of 34 or 58; the peer table has 20.
#[test]
fn rows_are_listed_with_what_is_missing_before_them() {
    let table = |subtype, sequence| make::record(13, subtype, &rib(sequence));
    let route = |subtype, sequence| make::record(12, subtype, &dump(subtype, 7, sequence));
    let peers = make::record(13, 1, &make::peer_table(b"", 0, &[]));
    // another subtype is the same type
    let other_subtype = [table(2, 5), table(4, 7), table(8, 7)];
    assert_eq!(listed(&other_subtype), ["R 0 20 13 2", "R 20 40 13 4", "S 20 1 0", "R 40 60 13 8", "S 40 0 1"]);
    let other_family = [route(1, 65_535), route(2, 0)];
    assert_eq!(listed(&other_family), ["R 0 34 12 1", "R 34 92 12 2", "S 34 0 0"]);
    // a peer table between two rows of either type starts the count afresh, and a state change does not
    let afresh = [table(2, 5), peers.clone(), table(2, 9), route(1, 5), peers, route(1, 9)];
    let rows = ["R 0 20 13 2", "R 20 40 13 1", "R 40 60 13 2", "R 60 94 12 1", "R 94 114 13 1", "R 114 148 12 1"];
    assert_eq!(listed(&afresh), rows);
    let state = make::record(16, 0, &make::state_change_body(0, 1));
    assert_eq!(listed(&[table(2, 5), state, table(2, 9)])[2..], ["R 52 72 13 2", "S 52 3 0"]);
    // each type has a count of its own
    let both = [table(2, 5), route(1, 9), table(2, 6), route(1, 8)];
    assert_eq!(listed(&both)[2..], ["R 54 74 13 2", "S 54 0 0", "R 74 108 12 1", "S 74 65534 0"]);
}

/// A row in the middle has 33 prefix bits and ends, by its own length, where the next begins.
#[test]
fn a_gap_between_two_rows_clears_nothing() {
    let table = |sequence| make::record(13, 2, &rib(sequence));
    let refused = make::record(13, 2, &make::rib_head(6, 33, 10, 0));
    let torn = [table(5), refused, table(7), table(8)];
    let lines = ["R 0 20 13 2", "G 20 44 7 4 2", "R 44 64 13 2", "S 44 1 0", "R 64 84 13 2", "S 64 0 0"];
    assert_eq!(listed(&torn), lines);
}

/// Whether a reply breaks a rule.
fn breaks(kind: u16, body: &[u8], before: Counters, counted: Counted) -> bool {
    let question = Question::Missing { counters: before, kind, subtype: 2, body };
    rules::broken(&question, &Reply::Counted(counted)).is_some()
}

#[test]
fn a_wrong_count_of_16_bits_breaks_a_rule() {
    for (earlier, later, missing, repeat) in OF_16 {
        let (before, body) = (Counters { dump: earlier, ..BOTH }, dump(2, 9, later));
        let counters = Counters { dump: later, ..BOTH };
        let told = |missing, repeat| Counted { counters, told: Some(Missing { missing, repeat }) };
        let right = told(missing, repeat);
        assert!(!breaks(12, &body, before, right));
        for wrong in [missing + 1, missing + 65_536, missing.wrapping_sub(1)] {
            assert!(breaks(12, &body, before, told(wrong, repeat)));
        }
        assert!(breaks(12, &body, before, told(missing, !repeat)));
        assert!(breaks(12, &body, before, Counted { counters: Counters { table: 0, ..counters }, ..right }));
        assert!(breaks(12, &body, Counters { dump_seen: false, ..before }, right));
        assert!(breaks(12, &dump(2, later, !later), before, right));
    }
}

#[test]
fn a_wrong_count_of_32_bits_breaks_a_rule() {
    for (earlier, later, missing, repeat) in OF_32 {
        let (before, body) = (Counters { table: earlier, ..BOTH }, rib(later));
        let counters = Counters { table: later, ..BOTH };
        let told = |missing, repeat| Counted { counters, told: Some(Missing { missing, repeat }) };
        let right = told(missing, repeat);
        assert!(!breaks(13, &body, before, right));
        for wrong in [missing.wrapping_add(1), missing.wrapping_sub(1)] {
            assert!(breaks(13, &body, before, told(wrong, repeat)));
        }
        assert!(breaks(13, &body, before, told(missing, !repeat)));
        assert!(breaks(13, &body, before, Counted { counters: Counters { dump: 0, ..counters }, ..right }));
        assert!(breaks(13, &body, Counters { table_seen: false, ..before }, right));
        assert!(breaks(13, &rib(!later), before, right));
        assert!(breaks(5, &body, before, Counted { counters: before, ..right }));
    }
}
