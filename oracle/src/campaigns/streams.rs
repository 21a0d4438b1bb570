//! Random streams: good and bad records in a row, then damaged, and asked about from everywhere.

use super::{Put, ASKED, WINDOWS};
use crate::answers::{Event, Walk};
use crate::damage;
use crate::make;
use crate::question::{Question, Reply};
use crate::random::Random;
use crate::subject::Reading;

pub fn run(put: Put, random: &mut Random, count: u64) {
    for _ in 0..count {
        let stream = random_stream(random);
        walks(put, random, &stream);
        windows_around_a_gap(put, random, &stream);
        from_everywhere(put, random, &stream);
    }
}

pub fn random_stream(random: &mut Random) -> Vec<u8> {
    let mut stream = Vec::new();
    for _ in 0..random.below(9) {
        let repeated = random.pick(&[1, 1, 1, 3]);
        let record = if random.once_in(4) { make::bad_record(random) } else { make::good_record(random) };
        stream.extend(record.repeat(repeated));
    }
    for _ in 0..random.below(4) {
        damage::once(random, &mut stream);
    }
    stream
}

fn some_window(random: &mut Random, stream: &[u8]) -> usize {
    if random.once_in(2) {
        return random.below(stream.len() + 8);
    }
    random.pick(&WINDOWS)
}

pub fn walks(put: Put, random: &mut Random, stream: &[u8]) {
    for _ in 0..3 {
        let (window, asked) = (some_window(random, stream), random.pick(&ASKED));
        put(&Question::Walk { stream, window, asked });
    }
    let (window, asked) = (some_window(random, stream), random.pick(&ASKED));
    put(&Question::Causes { stream, window, asked });
}

/// The windows at which the answer to a gap changes: one that just reaches its end, and one that just reaches the
/// end of the stream.
fn windows_around_a_gap(put: Put, random: &mut Random, stream: &[u8]) {
    let asked = random.pick(&ASKED);
    let whole = Question::Walk { stream, window: usize::MAX, asked };
    let Some(Reply::Walk(events)) = whole.put_to(&Reading) else {
        return;
    };
    let gap = events.iter().find_map(|event| match *event {
        Event::Gap { start, end, .. } => Some((start, end)),
        _ => None,
    });
    let Some((start, end)) = gap else {
        return;
    };
    let walk = Walk { position: start, finished: false };
    for edge in [end - start, (stream.len() - start).saturating_sub(6)] {
        for window in [edge.saturating_sub(1), edge, edge + 1] {
            put(&Question::Step { stream, walk, window, asked });
        }
    }
}

fn from_everywhere(put: Put, random: &mut Random, stream: &[u8]) {
    for _ in 0..2 {
        let at = random.below(stream.len() + 2);
        let (window, asked) = (some_window(random, stream), random.pick(&ASKED));
        let walk = Walk { position: at, finished: random.once_in(16) };
        put(&Question::Step { stream, walk, window, asked });
        put(&Question::Judge { stream, at });
        put(&Question::Candidate { stream, at });
        put(&Question::Aligned { stream, from: at, asked });
        put(&Question::Scan { stream, from: at, window, asked });
    }
}
