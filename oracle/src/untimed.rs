//! The crate reads the headers of types 33 and 49 without microseconds, as both sides read those of 32 and 48. So its
//! reply is the reading's for a stream with 32 and 48 in their place, in each header that the question comes to. A header
//! inside a chain or a scan is none of those: neither type is carried, with microseconds or without.

use crate::answers::{Event, Walk};
use crate::question::{Question, Reply};
use crate::reading;
use crate::subject::Reading;

/// The stream as the crate reads it, where that is another one.
pub fn stream(question: &Question) -> Option<Vec<u8>> {
    match *question {
        Question::HeaderRead { stream, at } | Question::Frame { stream, at } | Question::Judge { stream, at } => {
            plain_at(stream, at)
        }
        Question::Step { stream, walk, .. } => plain_at(stream, walk.position),
        Question::Walk { stream, window, asked } | Question::Causes { stream, window, asked } => {
            plain_walk(stream, window, asked)
        }
        _ => None,
    }
}

/// The reading's reply to that stream, told of the stream that was asked about: a header has its own type, and the
/// number of a gap's refusal is, in the crate's replies too, the reading's.
pub fn reply(question: &Question, asked_so: &Question) -> Option<Reply> {
    let stream = question.input();
    let mut reply = asked_so.put_to(&Reading)?;
    match &mut reply {
        Reply::Header(answer) if answer.refusal == 0 => answer.value.kind += 1,
        Reply::Frame(answer) if answer.refusal == 0 => answer.value.header.kind += 1,
        Reply::Step(event, _) => number_anew(event, stream),
        Reply::Walk(events) => events.iter_mut().for_each(|event| number_anew(event, stream)),
        _ => {}
    }
    Some(reply)
}

fn number_anew(event: &mut Event, stream: &[u8]) {
    if let Event::Gap { start, refusal, .. } | Event::Window { start, refusal, .. } = event {
        *refusal = reading::judge(stream, *start).refusal;
    }
}

/// Whether a header of type 33 or 49 may stand at an offset.
fn is_33_or_49(stream: &[u8], at: usize) -> bool {
    let kind = stream.get(at..).and_then(|rest| rest.get(4..6));
    matches!(kind, Some([0, 33 | 49]))
}

fn plain_at(stream: &[u8], at: usize) -> Option<Vec<u8>> {
    is_33_or_49(stream, at).then(|| {
        let mut plain = stream.to_vec();
        plain[at + 5] -= 1;
        plain
    })
}

/// Each record that the walk judges first is changed before it is judged, and no octet after its type.
fn plain_walk(stream: &[u8], window: usize, asked: u8) -> Option<Vec<u8>> {
    let mut plain = stream.to_vec();
    let mut walk = Walk::default();
    loop {
        if is_33_or_49(&plain, walk.position) {
            plain[walk.position + 5] -= 1;
        }
        if reading::step(&plain, &mut walk, window, asked).is_last() {
            break;
        }
    }
    (plain != stream).then_some(plain)
}
