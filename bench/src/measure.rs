//! Times of the sides over the same work, taken in turn in one process.

use std::time::{Duration, Instant};

/// One side of a work. It answers the same number each time that it runs, and the same as the other sides.
pub type Side<'a> = Box<dyn FnMut() -> u64 + 'a>;

/// The same work done by each side. The crate lacks some; the expert's calls stand behind a wall like ours where a work has many
/// calls.
pub struct Work<'a> {
    pub name: String,
    pub by_crate: Option<Side<'a>>,
    pub expert: Side<'a>,
    pub walled: Option<Side<'a>>,
    pub ours: Side<'a>,
}

/// The best time of each side, and by how much it is that of ours: by the best times, and in the least and the greatest
/// of the rounds.
pub struct Timed {
    pub best: Duration,
    pub ratio: Ratio,
}

pub struct Ratio {
    pub best: f64,
    pub least: f64,
    pub greatest: f64,
}

pub struct Line {
    pub name: String,
    pub ours: Duration,
    pub by_crate: Option<Timed>,
    pub expert: Timed,
    pub walled: Option<Timed>,
}

/// Runs a side once.
fn time(side: &mut Side, expected: u64, who: &str, name: &str) -> Duration {
    let start = Instant::now();
    let answer = side();
    let taken = start.elapsed();
    assert_eq!(answer, expected, "{name}: {who} answers otherwise than the proved calls");
    taken
}

fn timed(theirs: &[Duration], ours: &[Duration]) -> Timed {
    let seconds = |times: &[Duration]| times.iter().min().copied().unwrap_or_default();
    let ratios: Vec<f64> = theirs.iter().zip(ours).map(|(a, b)| a.as_secs_f64() / b.as_secs_f64()).collect();
    let ratio = Ratio {
        best: seconds(theirs).as_secs_f64() / seconds(ours).as_secs_f64(),
        least: ratios.iter().copied().fold(f64::INFINITY, f64::min),
        greatest: ratios.iter().copied().fold(0.0, f64::max),
    };
    Timed { best: seconds(theirs), ratio }
}

/// Runs the sides in turn, so many rounds after one that is not counted, forth and back: who runs after the crate, which leaves
/// the caches full of its own, is not always the same. Every answer is checked.
pub fn measure(work: Work, rounds: usize) -> Line {
    let Work { name, mut ours, expert, walled, by_crate } = work;
    let expected = ours();
    let mut sides = [
        ("a later run", Some(ours)),
        ("the expert's Rust", Some(expert)),
        ("the expert's Rust behind calls", walled),
        ("the crate", by_crate),
    ];
    let mut times: [Vec<Duration>; 4] = Default::default();
    for round in 0..=rounds {
        for place in 0..sides.len() {
            let place = if round % 2 == 0 { place } else { sides.len() - 1 - place };
            let (who, side) = &mut sides[place];
            if let Some(side) = side {
                let taken = time(side, expected, who, &name);
                if round > 0 {
                    times[place].push(taken);
                }
            }
        }
    }
    let [ours, expert, walled, by_crate] = times;
    let of = |theirs: Vec<Duration>| (!theirs.is_empty()).then(|| timed(&theirs, &ours));
    Line {
        by_crate: of(by_crate),
        walled: of(walled),
        expert: timed(&expert, &ours),
        ours: ours.iter().min().copied().unwrap_or_default(),
        name,
    }
}
