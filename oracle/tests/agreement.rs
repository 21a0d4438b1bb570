//! A short run of the comparison, and the smallest input for each known difference.

use mrt_oracle::campaigns::{missing, pushes, rows, streams, table_dumps, tokens};
use mrt_oracle::compare::Differ;
use mrt_oracle::question::Question;
use mrt_oracle::random::Random;

#[test]
fn the_crate_and_the_reading_agree() {
    let mut differ = Differ::default();
    let mut put = |question: &Question| differ.ask(question);
    tokens::short(&mut put);
    pushes::run(&mut put, &mut Random::new(2));
    missing::run(&mut put, &mut Random::new(2));
    table_dumps::run(&mut put, &mut Random::new(2));
    streams::run(&mut put, &mut Random::new(2), 500);
    assert_eq!(differ.failures(), 0, "{}", differ.report());
}

/// What each row of the known differences says, the crate before the reading.
const ROWS: [(&str, &str, &str); 25] = [
    (
        "cut_body_is_named_before_the_unknown_type",
        "G 0 12 4 5 0 (Error: truncated MRT body: expected 129 bytes, read 0) | E 12",
        "G 0 12 2 5 0 | E 12",
    ),
    (
        "cut_body_is_named_before_the_short_length",
        "G 0 12 4 5 0 (Error: truncated MRT body: expected 1 bytes, read 0) | E 12",
        "G 0 12 3 5 0 | E 12",
    ),
    (
        "size_limit_is_named_first",
        "G 0 12 100 5 0 (Error: MRT message too large: 16777217 bytes) | E 12",
        "G 0 12 4 5 0 | E 12",
    ),
    (
        "body_above_16_mib",
        "X 0 1048576 100 (Error: MRT message too large: 16777217 bytes)",
        "G 0 16777229 5 4 3 | R 16777229 16777261 16 0 | R 16777261 16777293 16 0 | R 16777293 16777325 16 0 \
         | E 16777325",
    ),
    (
        "body_above_16_mib",
        "X 0 1048576 100 (Error: MRT message too large: 16777217 bytes)",
        "R 0 16777229 13 2 | E 16777229",
    ),
    (
        "microseconds_of_33_and_49_are_left_in_the_body",
        "refusal 0, stored length 4, microseconds 0",
        "refusal 0, stored length 0, microseconds 1",
    ),
    (
        "microseconds_of_33_and_49_are_left_in_the_body",
        "G 0 12 5 4 0 (Error: unsupported MRT type: ISIS_ET) | E 12",
        "G 0 12 3 5 0 | E 12",
    ),
    (
        "microseconds_of_33_and_49_are_left_in_the_body",
        "G 0 12 4 5 0 (Error: truncated MRT body: expected 4 bytes, read 0) | E 12",
        "G 0 12 1 5 0 | E 12",
    ),
    (
        "microseconds_of_33_and_49_are_left_in_the_body",
        "refusal 0, stored length 4, microseconds 0",
        "refusal 0, stored length 0, microseconds 1",
    ),
    (
        "microseconds_of_33_and_49_are_left_in_the_body",
        "G 0 12 5 4 0 (Error: unsupported MRT type: OSPFv3_ET) | E 12",
        "G 0 12 3 5 0 | E 12",
    ),
    (
        "microseconds_of_33_and_49_are_left_in_the_body",
        "G 0 12 4 5 0 (Error: truncated MRT body: expected 4 bytes, read 0) | E 12",
        "G 0 12 1 5 0 | E 12",
    ),
    (
        "own_parser_takes_a_cut_address_for_a_failed_read",
        "X 0 0 255 (Error: Cannot parse IPv4 address)",
        "G 0 33 5 5 0 | E 33",
    ),
    (
        "own_parser_takes_a_cut_address_for_a_failed_read",
        "X 0 0 255 (Error: Cannot parse IPv4 address)",
        "G 0 38 5 5 0 | E 38",
    ),
    ("own_parser_leaves_octets_of_a_state_change", "R 0 33 16 0 | E 33", "G 0 33 7 4 0 | E 33"),
    ("own_parser_knows_the_short_state_change", "R 0 20 16 0 | E 20", "G 0 20 7 4 0 | E 20"),
    ("own_parser_knows_the_short_open", "R 0 45 16 1 | E 45", "G 0 45 7 4 0 | E 45"),
    (
        "own_check_of_the_scan_has_no_least_open",
        "G 0 1 4 2 3 (Error: truncated MRT body: expected 16777216 bytes, read 130) | R 1 48 16 1 | R 48 95 16 1 \
         | R 95 142 16 1 | E 142",
        "G 0 142 4 5 0 | E 142",
    ),
    (
        "own_scan_takes_up_on_type_5",
        "G 0 1 4 1 3 (Error: truncated MRT body: expected 16777216 bytes, read 73) | R 1 29 5 1 | R 29 57 5 1 \
         | R 57 85 5 1 | E 85",
        "G 0 85 4 5 0 | E 85",
    ),
    ("next_id_counts_distinct_addresses", "refusal 0, id 2", "refusal 0, id 3"),
    ("view_name_that_is_no_text_is_emptied", "refusal 0, view name of 0 octets", "refusal 0, view name of 1 octets"),
    ("host_bits_are_kept_by_the_reader", "refusal 0, prefix 0aff", "refusal 0, prefix 0a80"),
    ("host_bits_are_kept_by_the_writer", "refusal 0, wrote 00000000090aff0000", "refusal 0, wrote 00000000090a800000"),
    ("wide_as_is_cut_silently", "refusal 0, wrote 00000000000000010000000000000000000000", "refusal 10, wrote "),
    ("header_length_turns_over", "refusal 0, wrote 00000000001100000000000000000000", "refusal 10, wrote "),
    ("path_number_is_dropped_silently", "refusal 0, wrote 000000000000010000000000000000", "refusal 10, wrote "),
];

#[test]
fn each_known_difference_shows_on_its_smallest_input() {
    let rows = rows::all();
    let said: Vec<_> = rows.iter().map(|row| (row.name, row.of_crate.as_str(), row.of_reading.as_str())).collect();
    assert_eq!(said, ROWS);
}
