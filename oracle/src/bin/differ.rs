//! Compares the crate with the plain reading of 01. `--streams N` sets how many random streams are walked, `--seed S`
//! where the random numbers start. Ends with status 1 where a disagreement has no name. `--rows` shows the smallest
//! input for each known difference instead.

use mrt_oracle::campaigns::{
    bounds, edges, headers, missing, peers, pushes, real, records, ribs, rows, streams, table_dumps, tokens,
};
use mrt_oracle::compare::Differ;
use mrt_oracle::question::Question;
use mrt_oracle::random::Random;
use std::process::ExitCode;
use std::time::Instant;

struct Settings {
    streams: u64,
    seed: u64,
    rows: bool,
}

fn settings() -> Result<Settings, String> {
    let mut settings = Settings { streams: 500_000, seed: 1, rows: false };
    let mut words = std::env::args().skip(1);
    while let Some(word) = words.next() {
        if word == "--rows" {
            settings.rows = true;
            continue;
        }
        let number = words.next().and_then(|value| value.parse().ok());
        match (word.as_str(), number) {
            ("--streams", Some(number)) => settings.streams = number,
            ("--seed", Some(number)) => settings.seed = number,
            _ => return Err("usage: differ [--streams N] [--seed S] | differ --rows".to_string()),
        }
    }
    Ok(settings)
}

fn show_rows() {
    for row in rows::all() {
        println!("{}", row.name);
        println!("  input    {}", row.input);
        println!("  crate    {}", row.of_crate);
        println!("  reading  {}", row.of_reading);
    }
}

/// Runs one campaign and says how long it took.
fn timed(name: &str, campaign: impl FnOnce()) {
    let start = Instant::now();
    campaign();
    println!("{name:<10} {:>6.1} s", start.elapsed().as_secs_f64());
}

fn run_campaigns(differ: &mut Differ, settings: &Settings) {
    let mut random = Random::new(settings.seed);
    let mut put = |question: &Question| differ.ask(question);
    timed("bounds", || bounds::run(&mut put));
    timed("headers", || headers::run(&mut put, &mut random));
    timed("peers", || peers::run(&mut put, &mut random));
    timed("ribs", || ribs::run(&mut put, &mut random));
    // These two with numbers of their own: the other questions of a seed stay as they are.
    timed("pushes", || pushes::run(&mut put, &mut Random::new(settings.seed)));
    timed("missing", || missing::run(&mut put, &mut Random::new(settings.seed)));
    timed("dumps", || table_dumps::run(&mut put, &mut random));
    timed("records", || records::run(&mut put));
    timed("tokens", || tokens::run(&mut put, &mut random));
    timed("edges", || edges::run(&mut put));
    timed("streams", || streams::run(&mut put, &mut random, settings.streams));
    match real::files(&real::folder()) {
        Ok(files) => timed(&format!("{} real", files.len()), || real::run(&mut put, &mut random, &files)),
        Err(error) => println!("real       not run: {error}; set MRT_STREAMS to a folder of .mrt files"),
    }
}

fn main() -> ExitCode {
    let settings = match settings() {
        Ok(settings) => settings,
        Err(usage) => {
            eprintln!("{usage}");
            return ExitCode::from(2);
        }
    };
    if settings.rows {
        show_rows();
        return ExitCode::SUCCESS;
    }
    println!("seed {}, {} random streams", settings.seed, settings.streams);
    let mut differ = Differ::default();
    run_campaigns(&mut differ, &settings);
    print!("{}", differ.report());
    for name in differ.unseen() {
        println!("NOT SEEN: {name}");
    }
    println!("{} failures", differ.failures());
    if differ.failures() > 0 || !differ.unseen().is_empty() {
        return ExitCode::FAILURE;
    }
    ExitCode::SUCCESS
}
