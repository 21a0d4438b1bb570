//! Puts each question to the reading and to every other subject, and counts what comes of it.

use crate::answers::Event;
use crate::known;
use crate::oracle::Oracle;
use crate::question::{Question, Reply};
use crate::rules;
use crate::subject::{Reading, Subject};
use crate::text;
use std::collections::BTreeMap;
use std::fmt::Write;

/// Names the known difference that explains two unlike replies, the subject's and the reading's.
type Difference = fn(&Question, &Reply, &Reply) -> Option<&'static str>;

/// Whether a subject may have nothing to say where the reading replied this.
type Silence = fn(&Question, &Reply) -> bool;

/// One that is compared with the reading.
struct Compared {
    subject: Box<dyn Subject>,
    difference: Difference,
    may_be_silent: Silence,
}

/// Only so many failures are shown; all are counted.
const SHOWN: usize = 10;
/// How many octets are looked at, all tries together, to make the input of one failure smaller.
const SHRINK_OCTETS: usize = 100_000_000;

#[derive(Default)]
struct Counts {
    put: u64,
    compared: u64,
    known: u64,
    failed: u64,
}

/// How often the reading's walks gave each kind of answer, by refusal and evidence.
#[derive(Default)]
struct Met {
    records: u64,
    ends: u64,
    gaps: BTreeMap<(u8, u8), u64>,
    windows: BTreeMap<u8, u64>,
}

impl Met {
    fn count(&mut self, reply: &Reply) {
        let Reply::Walk(events) = reply else {
            return;
        };
        for event in events {
            match *event {
                Event::Record { .. } => self.records += 1,
                Event::Gap { refusal, evidence, .. } => *self.gaps.entry((refusal, evidence)).or_default() += 1,
                Event::Window { refusal, .. } => *self.windows.entry(refusal).or_default() += 1,
                Event::End { .. } | Event::Beyond => self.ends += 1,
            }
        }
    }

    fn report(&self) -> String {
        let mut out = format!("whole walks met {} records, {} ends\n", self.records, self.ends);
        for ((refusal, evidence), times) in &self.gaps {
            let _ = writeln!(out, "  gaps with refusal {refusal}, evidence {evidence}: {times}");
        }
        for (refusal, times) in &self.windows {
            let _ = writeln!(out, "  refusals 11 at a record with refusal {refusal}: {times}");
        }
        out
    }
}

pub struct Differ {
    subjects: Vec<Compared>,
    met: Met,
    counts: BTreeMap<(&'static str, &'static str), Counts>,
    known: BTreeMap<(&'static str, &'static str), u64>,
    failures: u64,
}

impl Default for Differ {
    /// The crate beside the reading, and the proved library where it is linked (`build.rs`): that one is to have no
    /// known difference, and to be silent about nothing that it exports.
    fn default() -> Self {
        let of_crate =
            Compared { subject: Box::new(Oracle), difference: known::difference, may_be_silent: known::may_be_silent };
        #[allow(unused_mut)]
        let mut subjects = vec![of_crate];
        #[cfg(proved)]
        subjects.push(Compared {
            subject: Box::new(crate::proved::Proved),
            difference: crate::proved::difference,
            may_be_silent: crate::proved::may_be_silent,
        });
        Differ { subjects, met: Met::default(), counts: BTreeMap::new(), known: BTreeMap::new(), failures: 0 }
    }
}

impl Differ {
    pub fn failures(&self) -> u64 {
        self.failures
    }

    /// Puts one question to all.
    pub fn ask(&mut self, question: &Question) {
        let Some(expected) = question.put_to(&Reading) else {
            return;
        };
        if let Some(rule) = rules::broken(question, &expected) {
            self.fail(question, rule, &expected, &expected);
        }
        self.met.count(&expected);
        for place in 0..self.subjects.len() {
            self.compare(place, question, &expected);
        }
    }

    fn compare(&mut self, place: usize, question: &Question, expected: &Reply) {
        let Compared { subject, difference, may_be_silent } = &self.subjects[place];
        let name = subject.name();
        let counts = self.counts.entry((name, question.kind())).or_default();
        counts.put += 1;
        let Some(reply) = question.put_to(subject.as_ref()) else {
            if !may_be_silent(question, expected) {
                counts.failed += 1;
                self.fail(question, &format!("{name} has no answer"), expected, expected);
            }
            return;
        };
        counts.compared += 1;
        if reply == *expected {
            return;
        }
        if let Some(why) = difference(question, &reply, expected) {
            counts.known += 1;
            *self.known.entry((question.kind(), why)).or_default() += 1;
            return;
        }
        counts.failed += 1;
        let smallest = smallest_input(question, &self.subjects[place]);
        let smaller = question.with_input(&smallest).unwrap_or(*question);
        let subject = self.subjects[place].subject.as_ref();
        let (Some(reply), Some(expected)) = (smaller.put_to(subject), smaller.put_to(&Reading)) else {
            return;
        };
        self.fail(&smaller, name, &reply, &expected);
    }

    fn fail(&mut self, question: &Question, what: &str, reply: &Reply, expected: &Reply) {
        self.failures += 1;
        if self.failures > SHOWN as u64 {
            return;
        }
        println!("FAILURE {}: {} ({what})", self.failures, question.kind());
        println!("  asked    {}", text::settings(question));
        println!("  input    {}", text::head(question.input()));
        println!("  replied  {}", text::reply(reply));
        println!("  reading  {}", text::reply(expected));
    }

    /// Known differences that did not show. Either the questions have changed, or one of the two sides has.
    pub fn unseen(&self) -> Vec<&'static str> {
        let seen = |name: &str| self.known.keys().any(|(_, seen)| *seen == name);
        known::names().filter(|name| !seen(name)).collect()
    }

    /// The counts as a table, and the known differences by name.
    pub fn report(&self) -> String {
        let mut out = String::from("subject  question           put        compared   known      failed\n");
        for ((subject, kind), counts) in &self.counts {
            let Counts { put, compared, known, failed } = counts;
            let _ = writeln!(out, "{subject:<8} {kind:<18} {put:<10} {compared:<10} {known:<10} {failed}");
        }
        out.push_str("known difference                                question           times\n");
        for ((kind, name), times) in &self.known {
            let _ = writeln!(out, "{name:<47} {kind:<18} {times}");
        }
        out + &self.met.report()
    }
}

/// Takes pieces out of the input, large ones first, as long as the replies still differ for no known reason.
fn smallest_input(question: &Question, compared: &Compared) -> Vec<u8> {
    let mut best = question.input().to_vec();
    let mut looked_at = 0;
    let mut size = best.len();
    while size > 0 && looked_at < SHRINK_OCTETS {
        let mut at = 0;
        while at + size <= best.len() && looked_at < SHRINK_OCTETS {
            looked_at += best.len();
            let mut shorter = best.clone();
            shorter.drain(at..at + size);
            match question.with_input(&shorter) {
                Some(asked) if differs(&asked, compared) => best = shorter,
                _ => at += size,
            }
        }
        size /= 2;
    }
    best
}

fn differs(question: &Question, compared: &Compared) -> bool {
    match (question.put_to(compared.subject.as_ref()), question.put_to(&Reading)) {
        (Some(reply), Some(expected)) => {
            reply != expected && (compared.difference)(question, &reply, &expected).is_none()
        }
        _ => false,
    }
}
