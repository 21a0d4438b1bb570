//! How times grow: each work at three sizes, on the input that is worst for it.

use crate::inputs::{self, MIB};
use crate::measure::{measure, Work};
use crate::works::{peers::Table, ribs::Rib, walks};
use std::time::Duration;

const ROUNDS: usize = 5;

/// One line: what grows, and the times of ours at three sizes.
struct Row {
    name: &'static str,
    what: &'static str,
    times: Vec<(usize, Duration)>,
}

impl Row {
    fn new(name: &'static str, what: &'static str) -> Self {
        Row { name, what, times: Vec::new() }
    }

    /// The crate and the wall are left out.
    fn add(&mut self, size: usize, work: Work) {
        self.times.push((size, measure(Work { by_crate: None, walled: None, ..work }, ROUNDS).ours));
    }

    fn print(&self) {
        let cells = self.times.iter().map(|(size, time)| format!("{size}: {:.3}", time.as_secs_f64() * 1_000.0));
        println!("| {} | {} | {} |", self.name, self.what, cells.collect::<Vec<_>>().join(" | "));
    }
}

pub fn print() {
    println!("| work | what grows | ms | ms | ms |");
    println!("|---|---|---|---|---|");
    walk_in_octets();
    scan_in_octets();
    scan_in_window();
    scan_in_asked();
    own_end_in_asked();
    peers();
    entries();
}

/// Intact records.
fn walk_in_octets() {
    let mut row = Row::new("walk, update records", "n");
    for size in [4 * MIB, 16 * MIB, 64 * MIB] {
        match inputs::updates(size) {
            Ok(stream) => row.add(size, walks::walk("", &stream, MIB, 3)),
            Err(why) => println!("| walk, update records: left out, {why} |"),
        }
    }
    row.print();
}

/// Nothing stands anywhere, so that the scan looks at every octet once.
fn scan_in_octets() {
    let mut row = Row::new("scan, noise, W = n", "n");
    for size in [2 * MIB, 4 * MIB, 8 * MIB] {
        row.add(size, walks::walk("", &inputs::noise(size), size, 3));
    }
    row.print();
}

fn scan_in_window() {
    let mut row = Row::new("scan, 8 MiB of noise", "W");
    let noise = inputs::noise(8 * MIB);
    for window in [MIB, 2 * MIB, 4 * MIB] {
        row.add(window, walks::walk("", &noise, window, 3));
    }
    row.print();
}

/// Each tenth offset begins a row of records that lacks one, or more.
fn scan_in_asked() {
    let mut row = Row::new("scan, 1 MiB of rows of less than k records", "k");
    for asked in [4, 16, 64] {
        row.add(asked, walks::walk("", &inputs::broken_rows(MIB, asked), MIB, asked as u8));
    }
    row.print();
}

/// The try at a refused record's own end takes k judgements, and k records are handed out after it.
fn own_end_in_asked() {
    let mut row = Row::new("walk, 1 MiB of refused records, k good ones after each", "k");
    for asked in [4, 16, 64] {
        row.add(asked, walks::walk("", &inputs::refused_rows(MIB, asked), MIB, asked as u8));
    }
    row.print();
}

fn peers() {
    let mut rows = [
        Row::new("peer table read", "peers"),
        Row::new("64 lookups", "peers"),
        Row::new("peer table written", "peers"),
        Row::new("peers added one by one", "peers"),
    ];
    for count in [1_000, 4_000, 16_000] {
        let table = Table::new(count);
        let works = [table.read("read"), table.find("find", 64), table.write("write"), table.add("add")];
        rows.iter_mut().zip(works).for_each(|(row, work)| row.add(count, work));
    }
    rows.iter().for_each(Row::print);
}

fn entries() {
    let mut rows = [
        Row::new("RIB entries read by the cursor", "entries"),
        Row::new("RIB entries read by number", "entries"),
        Row::new("RIB body built by open_rib and push_entry", "entries"),
        Row::new("RIB body built by open_rib and push_entries", "entries"),
        Row::new("RIB body built by add_entry", "entries"),
    ];
    for count in [1_000, 4_000, 16_000] {
        let rib = Rib::new(count);
        let built = [rib.build("build"), rib.build_by_rows("rows"), rib.add("add")];
        let works = [rib.read("read"), rib.read_by_number("number")].into_iter().chain(built);
        rows.iter_mut().zip(works).for_each(|(row, work)| row.add(count, work));
    }
    rows.iter().for_each(Row::print);
}
