//! Walks a file as the reading of 01 does and prints the lines of its listing: `walk FILE [WINDOW] [CONFIRMATIONS]`.
//! Says at the end whether the crate walks the same, and where it does not, for which known difference.

use mrt_oracle::oracle::Oracle;
use mrt_oracle::question::Question;
use mrt_oracle::subject::Reading;
use mrt_oracle::{known, listing};
use std::process::ExitCode;
use std::{env, fs};

/// A number among the arguments, or what 01's listing program takes.
fn number<T: std::str::FromStr>(place: usize, otherwise: T) -> Option<T> {
    match env::args().nth(place) {
        Some(word) => word.parse().ok(),
        None => Some(otherwise),
    }
}

fn main() -> ExitCode {
    let arguments = (env::args_os().nth(1), number(2, 1 << 20), number(3, 3));
    let (Some(path), Some(window), Some(asked)) = arguments else {
        eprintln!("usage: walk FILE [WINDOW] [CONFIRMATIONS]");
        return ExitCode::from(2);
    };
    let stream = match fs::read(&path) {
        Ok(stream) => stream,
        Err(error) => {
            eprintln!("{} cannot be read: {error}", path.to_string_lossy());
            return ExitCode::FAILURE;
        }
    };
    for line in listing::lines(&stream, window, asked) {
        println!("{line}");
    }
    eprintln!("the crate answers {}", answer_of_crate(&Question::Walk { stream: &stream, window, asked }));
    ExitCode::SUCCESS
}

fn answer_of_crate(question: &Question) -> String {
    match (question.put_to(&Oracle), question.put_to(&Reading)) {
        (of_crate, of_reading) if of_crate == of_reading => "the same".to_string(),
        (Some(of_crate), Some(of_reading)) => match known::difference(question, &of_crate, &of_reading) {
            Some(name) => format!("otherwise, by the known {name}"),
            None => "otherwise".to_string(),
        },
        _ => "nothing".to_string(),
    }
}
