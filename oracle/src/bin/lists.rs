//! Writes the lists of questions and answers that the proved program `crates/oracle_questions` replays: `lists FOLDER`. The
//! same build writes the same lists.

use mrt_oracle::asked;
use mrt_oracle::campaigns::{bounds, headers, missing, peers, records, ribs, streams, table_dumps, tokens, Put};
use mrt_oracle::question::Question;
use mrt_oracle::random::Random;
use mrt_oracle::sample::Sample;
use std::path::Path;
use std::process::ExitCode;
use std::{env, fs, io};

const SEED: u64 = 1;
const STREAMS: u64 = 5_000;

const CAMPAIGNS: [fn(Put, &mut Random); 8] = [
    headers::run,
    peers::run,
    ribs::run,
    |put, _| records::run(put),
    |put, _| tokens::short(put),
    |put, random| streams::run(put, random, STREAMS),
    table_dumps::run,
    missing::run,
];

/// Every question around the bounds, and a choice of the campaigns' others. Each campaign has random numbers of its own:
/// a question more in one does not have those of the others drawn anew.
fn sampled() -> Sample {
    let mut sample = Sample::default();
    bounds::run(&mut |question: &Question| sample.keep(question));
    for campaign in CAMPAIGNS {
        let (mut random, mut choice) = (Random::new(SEED), Random::new(SEED));
        campaign(&mut |question: &Question| sample.offer(question, &mut choice), &mut random);
    }
    sample
}

fn write_all(folder: &Path) -> io::Result<()> {
    fs::create_dir_all(folder)?;
    let sample = sampled();
    for (call, name) in (1..).zip(asked::LISTS) {
        let lines = sample.lines(call);
        let by_crate = lines.iter().filter(|line| line.starts_with('C')).count();
        println!("{name}: {} questions, {by_crate} answered by the crate", lines.len());
        fs::write(folder.join(name), lines.join("\n") + "\n")?;
    }
    Ok(())
}

fn main() -> ExitCode {
    let Some(folder) = env::args_os().nth(1) else {
        eprintln!("usage: lists FOLDER");
        return ExitCode::from(2);
    };
    match write_all(Path::new(&folder)) {
        Ok(()) => ExitCode::SUCCESS,
        Err(error) => {
            eprintln!("the lists could not be written: {error}");
            ExitCode::FAILURE
        }
    }
}
