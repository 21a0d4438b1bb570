//! The example `routes`, which `cargo test` builds beside the tests: over a table in the older TABLE_DUMP, and over tables that lack
//! rows.

use mrt::{NewHeader, Prefix, RibBuilder, StoredLength};
use std::path::{Path, PathBuf};
use std::process::Command;
use std::{env, fs};

const STREAM: &str = "../crates/oracle_replay/data/mrtparse_openbgpd_rib_table.mrt";

/// The last peer is the first one, whose IPv4 address OpenBGPD has put into IPv6 records.
const REPORT: &str = "
  routes of each peer
    192.168.1.10 AS 65000             11
    2001:db8:0:1::10 AS 65000         10
    c0a8:10a:: AS 65000               10
  records by kind
    12/1 TABLE_DUMP AFI_IPv4         11
    12/2 TABLE_DUMP AFI_IPv6         20
  total: octets 2698, records 31, routes 31, gaps 0, octets in gaps 0, rows missing 0
";

/// What the example says of files.
fn report(files: &[&Path]) -> String {
    let test = env::current_exe().unwrap();
    let example = test.ancestors().nth(2).unwrap().join("examples/routes");
    let done = Command::new(&example).args(files).output();
    let done = done.unwrap_or_else(|error| panic!("{}: {error}", example.display()));
    assert!(done.status.success());
    String::from_utf8(done.stdout).unwrap()
}

#[test]
fn routes_of_table_dump_records_are_counted_by_their_peers() {
    assert_eq!(report(&[STREAM.as_ref()]), format!("{STREAM}{REPORT}"));
}

/// The row of 0.0.0.0/0 with a sequence number and no entry, 19 octets.
fn row(sequence: u32) -> [u8; 19] {
    let mut out = [0; 19];
    let (head, body) = out.split_at_mut(12);
    let header = NewHeader { timestamp: 9, kind: 13, subtype: 2, stored: StoredLength(7), micros: 0 };
    header.write(head).unwrap();
    RibBuilder::begin(body, 2, sequence, &Prefix::default()).unwrap();
    out
}

/// The row with more prefix bits than an address has, which is refused and skipped by itself.
fn refused_row(sequence: u32) -> [u8; 19] {
    let mut row = row(sequence);
    row[16] = 33;
    row
}

/// A file of rows.
fn table(name: &str, rows: &[[u8; 19]]) -> PathBuf {
    let path = Path::new(env!("CARGO_TARGET_TMPDIR")).join(name);
    fs::write(&path, rows.as_flattened()).unwrap();
    path
}

#[test]
fn a_refused_row_is_missing_before_the_row_after_it() {
    let file = table("refused_row", &[row(0), row(1), refused_row(2), row(3), row(4)]);
    let expected = "
  records by kind
    13/2 TABLE_DUMP_V2 RIB_IPV4_UNICAST          4
  gaps
    38 to 57: the body does not meet its check (13/2 TABLE_DUMP_V2 RIB_IPV4_UNICAST); \
                    ends at the refused record's own end, 2 confirmed
  rows missing
    at 57: 1
  total: octets 95, records 4, routes 0, gaps 1, octets in gaps 19, rows missing 1 before 1 record
";
    assert_eq!(report(&[&file]), format!("{}{expected}", file.display()));
}

/// Each row after the first comes so many numbers after the one before it.
fn spaced(step: u32, rows: u32) -> Vec<[u8; 19]> {
    (0..rows).map(|i| row(i * step)).collect()
}

/// What stands in a report from its missing rows on.
fn missing_rows(report: &str) -> &str {
    &report[report.find("  rows missing\n").unwrap()..]
}

#[test]
fn at_most_twenty_places_are_listed() {
    let places: String = (1..=20).map(|i| format!("    at {}: 2\n", 19 * i)).collect();
    for (rows, missing, more) in [(21, 40, ""), (22, 42, "    and 1 more\n"), (30, 58, "    and 9 more\n")] {
        let file = table(&format!("spaced_{rows}"), &spaced(3, rows));
        let octets = 19 * rows;
        let total = format!("  total: octets {octets}, records {rows}, routes 0, gaps 0, octets in gaps 0");
        let counted = format!("rows missing {missing} before {} records\n", rows - 1);
        let expected = format!("  rows missing\n{places}{more}{total}, {counted}");
        assert_eq!(missing_rows(&report(&[&file])), expected);
    }
}

/// What stands at the end of a report, after its gaps, of which there are none.
fn after_gaps(files: &[&Path]) -> String {
    report(files).trim_end().rsplit_once("octets in gaps 0").unwrap().1.to_string()
}

#[test]
fn repeats_are_told_and_each_file_is_counted_by_itself() {
    let one = table("one", &[row(5)]);
    assert_eq!(after_gaps(&[&one]), "");
    assert_eq!(after_gaps(&[&table("two", &[row(5), row(6)])]), ", rows missing 0");
    let again = table("again", &[row(5), row(5), row(5), row(6)]);
    assert_eq!(after_gaps(&[&again]), ", rows missing 0, row numbers repeated 2");
    let fallen = table("fallen", &[row(5), row(4), row(4)]);
    let said = ", rows missing 4294967294 before 1 record, row numbers repeated 1";
    assert_eq!(after_gaps(&[&fallen]), said);
    let said = ", rows missing 8589934588 before 2 records, row numbers repeated 4";
    assert_eq!(after_gaps(&[&fallen, &one, &again, &fallen]), said);
}
