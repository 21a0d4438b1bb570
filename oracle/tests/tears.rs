//! What is counted as handed out that nobody wrote, on streams small enough to follow.

use mrt_oracle::make;
use mrt_oracle::subject::Reading;
use mrt_oracle::tears::{cut_out, zeroed, Tally, Written, ASKED};

fn tally(file: &[u8], torn: &[u8]) -> Tally {
    let mut tally = Tally::default();
    tally.add(&Reading, &Written::of(&Reading, file), torn, ASKED);
    tally
}

#[test]
fn a_record_that_runs_into_its_neighbour_stands_before_a_gap() {
    let record = make::record(16, 4, &make::message_body(4, 1, 2, 100));
    assert_eq!(record.len(), 132);
    let file = record.repeat(5);
    // the first record has the second's first 41 octets; the other 91 are a gap, and three records confirm its end
    let torn = cut_out(&file, 60, 41);
    let seen = Tally { streams: 1, records: 1, before_gaps: 1, octets: 619, lost: 91, ..Tally::default() };
    assert_eq!(tally(&file, &torn), seen);
    // a whole record less is seen by nobody
    assert_eq!(tally(&file, &cut_out(&file, 60, 132)), Tally { octets: 528, ..Tally::default() });
}

#[test]
fn a_timestamp_is_held_to_nothing() {
    let record = make::record(16, 4, &make::message_body(4, 1, 2, 100));
    let file = record.repeat(5);
    // zeros from the first record's length on, which is thus a gap, up to the middle of the second's timestamp
    let torn = zeroed(&file, 11, 132 + 2 - 11);
    let seen = Tally { streams: 1, records: 1, misdated: 1, octets: file.len(), lost: 132, ..Tally::default() };
    assert_eq!(tally(&file, &torn), seen);
}

#[test]
fn zeros_are_routes_of_the_first_peer() {
    let entry = make::rib_entry(2, 1, &[0xaa; 20]);
    let body = [make::rib_head(0, 8, 10, 4), entry.repeat(4)].concat();
    let peers = make::peer_table(b"", 2, &[make::peer(2, 1, 65_001), make::peer(2, 2, 65_002)].concat());
    let file = [make::record(13, 1, &peers), make::record(13, 2, &body)].concat();
    // the second and third entry: three of eight octets are read there, and no gap tells of it
    let torn = zeroed(&file, file.len() - 3 * entry.len(), 2 * entry.len());
    let seen = Tally { streams: 1, records: 1, strays: 3, octets: file.len(), ..Tally::default() };
    assert_eq!(tally(&file, &torn), seen);
    assert_eq!(tally(&file, &file), Tally { octets: file.len(), ..Tally::default() });
}
