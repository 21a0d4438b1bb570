//! The listing of a stream, as the listing program writes it, out of the crate's walk.

use mrt::{Counters, Item, Record, Walk};
use std::fmt::Write;
use std::fs;
use std::path::Path;

fn listing(stream: &[u8]) -> String {
    let mut text = format!("H\t{}\t1048576\t3\n", stream.len());
    let mut counters = Counters::new();
    for item in Walk::new(stream) {
        match item.expect("a stream of at most 65,536 octets exhausts no window") {
            Item::Record(record) => list_record(&mut text, &record, &mut counters),
            Item::Gap(g) => {
                let (refusal, evidence) = (g.refusal.number(), g.evidence.number());
                writeln!(text, "G\t{}\t{}\t{refusal}\t{evidence}\t{}", g.start, g.end, g.confirmed).unwrap();
            }
        }
    }
    writeln!(text, "E\t{}", stream.len()).unwrap();
    text
}

/// The record, and what its sequence number tells.
fn list_record(text: &mut String, record: &Record<'_>, counters: &mut Counters) {
    let Record { header, start, end, .. } = record;
    writeln!(text, "R\t{start}\t{end}\t{}\t{}", header.kind, header.subtype).unwrap();
    if let Some(missing) = counters.count(record) {
        writeln!(text, "S\t{start}\t{}\t{}", missing.rows, u8::from(missing.repeat)).unwrap();
    }
}

#[test]
fn the_listing_of_three_records_of_which_one_is_refused() {
    let whole = crate::state_change();
    let stream = [whole.clone(), crate::record(13, 1, &[0; 7]), whole].concat();
    let expected = "H\t83\t1048576\t3\nR\t0\t32\t16\t0\nG\t32\t51\t7\t4\t1\nR\t51\t83\t16\t0\nE\t83\n";
    assert_eq!(listing(&stream), expected);
}

#[test]
fn the_listing_of_rows_with_a_gap_between_and_of_one_again() {
    let (row, refused) = (|number| crate::missing::row(13, 2, number), crate::record(13, 2, &[0; 6]));
    let stream = [row(6), refused, row(8), row(8)].concat();
    let expected = "H\t75\t1048576\t3\nR\t0\t19\t13\t2\nG\t19\t37\t7\t4\t2\n\
        R\t37\t56\t13\t2\nS\t37\t1\t0\nR\t56\t75\t13\t2\nS\t56\t0\t1\nE\t75\n";
    assert_eq!(listing(&stream), expected);
}

#[test]
fn every_stream_of_the_repository_has_its_listing() {
    let folder = Path::new(env!("CARGO_MANIFEST_DIR")).join("../crates/oracle_replay/data");
    let paths = fs::read_dir(folder).expect("the streams stand beside this folder").map(|entry| entry.unwrap().path());
    let streams: Vec<_> = paths.filter(|path| path.extension().is_some_and(|e| e == "mrt")).collect();
    assert!(!streams.is_empty());
    for path in streams {
        let expected = fs::read_to_string(path.with_extension("listing")).unwrap();
        assert_eq!(listing(&fs::read(&path).unwrap()), expected, "{}", path.display());
    }
}
