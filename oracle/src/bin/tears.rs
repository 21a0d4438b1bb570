//! Tears each real file at random places and counts what a walk then hands out that nobody wrote: octets cut out, and a
//! block zeroed. `tears [--places N] [--seed S] [--asked K]`; a line for each file of MRT_STREAMS.

use mrt_oracle::campaigns::real;
#[cfg(proved)]
use mrt_oracle::proved::Proved;
use mrt_oracle::random::Random;
#[cfg(not(proved))]
use mrt_oracle::subject::Reading;
use mrt_oracle::subject::Subject;
use mrt_oracle::tears::{cut_out, zeroed, Tally, Written, ASKED};
use std::process::ExitCode;

#[cfg(proved)]
const SUBJECT: &dyn Subject = &Proved;
#[cfg(not(proved))]
const SUBJECT: &dyn Subject = &Reading;

const CUT: usize = 41;
const BLOCK: usize = 4_096;
/// Of a shorter file a block is too large a part.
const SHORTEST: usize = 16 * BLOCK;

type Tear = fn(&[u8], usize, usize) -> Vec<u8>;

struct Settings {
    places: usize,
    seed: u64,
    asked: u8,
}

fn settings() -> Option<Settings> {
    let mut settings = Settings { places: 1_000, seed: 1, asked: ASKED };
    let mut words = std::env::args().skip(1);
    while let Some(word) = words.next() {
        let number = words.next()?;
        match word.as_str() {
            "--places" => settings.places = number.parse().ok()?,
            "--seed" => settings.seed = number.parse().ok()?,
            "--asked" => settings.asked = number.parse().ok()?,
            _ => return None,
        }
    }
    Some(settings)
}

/// One file torn in one way at each place.
fn torn(settings: &Settings, file: &[u8], written: &Written, tear: Tear, count: usize) -> Tally {
    let mut random = Random::new(settings.seed);
    let mut tally = Tally::default();
    for _ in 0..settings.places {
        let at = random.below(file.len() - count + 1);
        tally.add(SUBJECT, written, &tear(file, at, count), settings.asked);
    }
    tally
}

const COLUMNS: &str = "streams | records | before a gap | misdated | stray routes | lost %";

fn cells(tally: &Tally) -> String {
    let Tally { streams, records, before_gaps, misdated, strays, octets, lost } = tally;
    let share = 100.0 * *lost as f64 / *octets as f64;
    format!("{streams} | {records} | {before_gaps} | {misdated} | {strays} | {share:.1}")
}

fn main() -> ExitCode {
    let Some(settings) = settings() else {
        eprintln!("usage: tears [--places N] [--seed S] [--asked K]");
        return ExitCode::from(2);
    };
    let files = match real::files(&real::folder()) {
        Ok(files) => files,
        Err(error) => {
            eprintln!("not run: {error}; set MRT_STREAMS to a folder of .mrt files");
            return ExitCode::FAILURE;
        }
    };
    let Settings { places, seed, asked } = settings;
    println!("seed {seed}, {places} places in each file, {asked} confirming record(s), answers: {}", SUBJECT.name());
    println!("| file | {CUT} octets cut out: {COLUMNS} | {BLOCK} zeroed: {COLUMNS} |");
    println!("|---|---|---|---|---|---|---|---|---|---|---|---|---|");
    let (long, short): (Vec<_>, Vec<_>) = files.iter().partition(|(_, file)| file.len() >= SHORTEST);
    for (name, file) in long {
        let written = Written::of(SUBJECT, file);
        let cut = torn(&settings, file, &written, cut_out, CUT);
        let zeros = torn(&settings, file, &written, zeroed, BLOCK);
        println!("| {name} | {} | {} |", cells(&cut), cells(&zeros));
    }
    println!("{} files of fewer than {SHORTEST} octets were left out", short.len());
    ExitCode::SUCCESS
}
