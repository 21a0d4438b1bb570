//! One line for each work: the crate's best time, the expert's, ours, and what part of theirs ours is.

mod expert;
mod growth;
mod inputs;
mod measure;
mod works;

use inputs::MIB;
use measure::{measure, Line, Ratio, Work};
use std::time::Duration;
use works::peers::Table;
use works::ribs::Rib;
use works::{dumps, missing, walks};

const ROUNDS: usize = 15;

fn milliseconds(time: Duration) -> String {
    format!("{:.2}", time.as_secs_f64() * 1_000.0)
}

fn shown(ratio: &Ratio) -> String {
    format!("{:.2} ({:.2}-{:.2})", ratio.best, ratio.least, ratio.greatest)
}

fn print(line: &Line) {
    let by_crate = line.by_crate.as_ref();
    let cells = [
        line.name.clone(),
        by_crate.map_or("-".to_string(), |timed| milliseconds(timed.best)),
        milliseconds(line.expert.best),
        milliseconds(line.ours),
        by_crate.map_or("-".to_string(), |timed| shown(&timed.ratio)),
        shown(&line.expert.ratio),
        line.walled.as_ref().map_or("-".to_string(), |timed| shown(&timed.ratio)),
    ];
    println!("| {} |", cells.join(" | "));
}

/// The works whose names hold one of these words; all where there are none.
struct Chosen(Vec<String>);

impl Chosen {
    fn has(&self, name: &str) -> bool {
        self.0.is_empty() || self.0.iter().any(|word| name.contains(word.as_str()))
    }

    fn run(&self, work: Work) {
        if self.has(&work.name) {
            print(&measure(work, ROUNDS));
        }
    }

    /// One line for a work over a stream, or why there is none.
    fn over(&self, name: &str, stream: impl FnOnce() -> Result<Vec<u8>, String>, work: impl Fn(&[u8]) -> Work<'_>) {
        if !self.has(name) {
            return;
        }
        match stream() {
            Err(why) => println!("| {name}: left out, {why} |"),
            Ok(stream) => self.run(work(&stream)),
        }
    }

    fn walk(&self, name: &str, stream: impl FnOnce() -> Result<Vec<u8>, String>, window: usize) {
        self.over(name, stream, |stream| walks::walk(name, stream, window, 3));
    }
}

fn main() {
    let chosen = Chosen(std::env::args().skip(1).collect());
    if chosen.0.first().is_some_and(|word| word == "growth") {
        return growth::print();
    }
    println!("| work | crate ms | expert ms | ours ms | crate/ours | expert/ours | expert behind calls/ours |");
    println!("|---|---|---|---|---|---|---|");
    chosen.walk("walk, 64 MiB of updates", || inputs::updates(64 * MIB), MIB);
    // The same records where the caches hold them: what the code costs, and not the memory.
    let few = || inputs::updates(MIB).map(|stream| stream[..MIB].to_vec());
    chosen.walk("walk, 1 MiB of updates", few, MIB);
    chosen.walk("walk, a RIB of 73 MiB", || inputs::big("bird2012_big_rib46.mrt.xz"), MIB);
    let dumped = "32 MiB of type 12 records, walked and read";
    chosen.over(dumped, || inputs::dumps(32 * MIB), |stream| dumps::read(dumped, stream));
    let counted = "32 MiB of type 13 records, missing rows counted";
    chosen.over(counted, || inputs::tables(32 * MIB), |stream| missing::count(counted, stream));
    let torn = || inputs::updates(4 * MIB).map(|stream| inputs::torn(&stream));
    chosen.walk("walk, 4 MiB damaged every 5,000 octets", torn, MIB);
    chosen.walk("scan, 8 MiB of noise", || Ok(inputs::noise(8 * MIB)), 8 * MIB);
    chosen.walk("scan, 8 MiB of zeros", || Ok(inputs::zeros(8 * MIB)), 8 * MIB);
    chosen.walk("scan, 8 MiB of false starts", || Ok(inputs::false_starts(8 * MIB)), 8 * MIB);
    let plausible = || Ok(inputs::plausible_starts(8 * MIB));
    chosen.walk("scan, 8 MiB with a plausible start in every 8 octets", plausible, 8 * MIB);
    let table = Table::new(65_535);
    chosen.run(table.read("peer table of 65,535, read"));
    chosen.run(table.find("peer table of 65,535, 64 lookups", 64));
    chosen.run(table.write("peer table of 65,535, written"));
    let rib = Rib::new(65_535);
    chosen.run(rib.read("RIB record of 65,535 entries, read"));
    chosen.run(rib.build("RIB record of 65,535 entries, built"));
    chosen.run(rib.build_by_rows("RIB record of 65,535 entries, built by rows"));
    chosen.run(rib.build_by_ready_rows("RIB record of 65,535 entries, built by rows held ready"));
}
