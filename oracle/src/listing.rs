//! The listing of a stream by the reading of 01 and 02: a line for each answer of its walk, and one more for each row that has a
//! row of its type before it.

use crate::answers::{Counted, Counters, Event};
use crate::reading;
use crate::subject::{Reading, Subject};

pub fn lines(stream: &[u8], window: usize, asked: u8) -> Vec<String> {
    let mut lines = vec![format!("H\t{}\t{window}\t{asked}", stream.len())];
    let mut counters = Counters::default();
    for event in Reading.walk(stream, window, asked).unwrap_or_default() {
        lines.push(event.line());
        if let Event::Record { start, kind, subtype, .. } = event {
            let counted = reading::count_missing(counters, kind, subtype, reading::body(stream, start));
            let Counted { counters: after, told } = counted;
            lines.extend(told.map(|missing| missing.line(start)));
            counters = after;
        }
    }
    lines
}
