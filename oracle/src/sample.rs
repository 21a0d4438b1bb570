//! The lines of the lists: all of the questions around the bounds, and of many others a few for each way to answer.

use crate::answers::{Event, NewDump};
use crate::asked;
use crate::question::{Question, Reply};
use crate::random::Random;
use crate::subject::Reading;
use std::collections::{BTreeMap, BTreeSet};

/// Longer inputs are left out of the choice.
const MOST_OCTETS: usize = 160;
const MOST_SLOTS: usize = 4;
/// How many cases of one way to answer are kept.
const KEPT: usize = 2;
/// One question in so many is looked at, so that neighbours do not fill the list.
const ONE_IN: usize = 7;

#[derive(Default)]
pub struct Sample {
    all: Vec<(u8, String)>,
    seen: BTreeSet<String>,
    ways: BTreeMap<String, usize>,
}

impl Sample {
    /// Keeps a question's lines, each once.
    pub fn keep(&mut self, question: &Question) {
        for (call, line) in asked::lines(question) {
            if self.seen.insert(line.clone()) {
                self.all.push((call, line));
            }
        }
    }

    /// Keeps a question's lines where it is small and its way to answer is not yet there often enough. The first letter
    /// of a line, who answered it, is a part of the way.
    pub fn offer(&mut self, question: &Question, choice: &mut Random) {
        if !is_small(question) || !choice.once_in(ONE_IN) {
            return;
        }
        let Some(reply) = question.put_to(&Reading) else {
            return;
        };
        let way = way(question, &reply);
        for (call, line) in asked::lines(question) {
            let kept = self.ways.entry(format!("{call} {} {way}", &line[..1])).or_default();
            if *kept < KEPT && self.seen.insert(line.clone()) {
                *kept += 1;
                self.all.push((call, line));
            }
        }
    }

    /// The lines of a call, in the order in which they were kept.
    pub fn lines(&self, call: u8) -> Vec<&str> {
        self.all.iter().filter(|(of, _)| *of == call).map(|(_, line)| line.as_str()).collect()
    }
}

fn is_small(question: &Question) -> bool {
    let slots = match question {
        Question::PeerRead { slots, .. } | Question::PeerFind { slots, .. } | Question::PeerAdd { slots, .. } => {
            slots.len()
        }
        Question::PeerWrite { room, table } => table.slots.len() + usize::from(room.len() > MOST_OCTETS) * MOST_OCTETS,
        Question::RibAdd { buffer: room, .. } | Question::TableDumpWrite { room, .. } => {
            usize::from(room.len() > MOST_OCTETS) * MOST_OCTETS
        }
        _ => 0,
    };
    question.input().len() <= MOST_OCTETS && slots <= MOST_SLOTS
}

/// The way in which a question was answered: its kind and refusal, or the answers that a walk gave.
fn way(question: &Question, reply: &Reply) -> String {
    let detail = match reply {
        Reply::Header(answer) => format!("{} {}", answer.refusal, answer.value.kind),
        Reply::Frame(answer) => format!("{} {}", answer.refusal, answer.value.header.kind),
        Reply::Checked(refusal) => format!("{refusal}"),
        Reply::Candidate(answer) => format!("{}", answer.value.evidence),
        Reply::RibStep(answer) => format!("{} {}", answer.refusal, answer.value.handed),
        Reply::Pushed(answer, _) => format!("{} {}", answer.refusal, answer.value.count),
        Reply::Step(event, _) => shape(event),
        Reply::Table(answer, _) => format!("{} {}", answer.refusal, answer.value.count),
        Reply::Id(answer) | Reply::Added(answer, _) => format!("{} {}", answer.refusal, answer.value),
        Reply::Written(answer, _) => format!("{} {}", answer.refusal, answer.value),
        Reply::Rib(answer) => format!("{} {}", answer.refusal, answer.value.read),
        Reply::Dump(answer) => {
            format!("{} {}", answer.refusal, answer.value.attributes_end - answer.value.attributes_at)
        }
        Reply::Entry(answer) => format!("{} {}", answer.refusal, answer.value.age.signum()),
        Reply::Counted(counted) => format!("{:?}", counted.told.map(|told| (told.missing.min(1), told.repeat))),
        Reply::Walk(events) => events.iter().map(shape).collect(),
        other => format!("{other:?}"),
    };
    let of = match question {
        // 01 knows no type above 49
        Question::HeaderWrite { header, .. } => header.kind.min(50),
        Question::Missing { kind: kind @ (12 | 13), .. } => *kind,
        Question::RibRead { subtype, .. }
        | Question::RibEntry { subtype, .. }
        | Question::TableDumpRead { subtype, .. }
        | Question::TableDumpWrite { dump: NewDump { subtype, .. }, .. } => *subtype,
        _ => 0,
    };
    format!("{} {of} {detail}", question.kind())
}

/// A walk's answer without its offsets.
fn shape(event: &Event) -> String {
    match *event {
        Event::Record { kind, .. } => format!("R{kind}"),
        Event::Gap { refusal, evidence, .. } => format!("G{refusal}{evidence}"),
        Event::Window { refusal, .. } => format!("X{refusal}"),
        Event::End { .. } | Event::Beyond => "E".to_string(),
    }
}
