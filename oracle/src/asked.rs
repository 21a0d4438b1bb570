//! Questions in the form in which the proved program `crates/oracle_questions` replays them: a call, octets, numbers, and the
//! expected answer with the lent memory after the call. `crates/oracle_questions/README.md` has the layout of each.

use crate::answers::{
    Answer, Candidate, Counted, Counters, DumpedRoute, Event, Frame, Header, NewDump, NewEntry, Peer, PeerTable,
    RibEntry, RibTable, TableDump,
};
use crate::oracle::Oracle;
use crate::question::{Question, Reply};
use crate::reading;
use crate::subject::{NewTable, Reading, Subject};

/// Of longer tables and bodies the parts are not asked for one by one: the answer would be too long.
const MOST_PARTS: usize = 100;
/// The table's octets before the first peer, where the view name is empty.
const TABLE_HEAD: usize = 8;
/// How far back a run of the text form may look, and how long it is at the least.
const FARTHEST: usize = 32;
const SHORTEST_RUN: usize = 24;
/// How many zeros one sign may stand for.
const MOST_ZEROS: usize = 16;
/// What stands after the last entry that a cursor hands out.
const CURSOR_END: usize = 255;

/// The list of each call, the first of which has the number 1.
pub const LISTS: [&str; 22] = [
    "header_read",
    "frame",
    "header_write",
    "judge",
    "candidate",
    "body_check",
    "peer_table_check",
    "peer_table_read",
    "peer_read",
    "peer_write",
    "rib_read",
    "rib_entry",
    "rib_cursor",
    "age",
    "rib_begin",
    "rib_add",
    "rib_push",
    "walk_step",
    "whole_walk",
    "table_dump_read",
    "table_dump_write",
    "missing",
];

#[derive(Debug, Clone, PartialEq, Eq)]
pub struct Asked {
    pub call: u8,
    first: Vec<u8>,
    second: Vec<u8>,
    numbers: Vec<u8>,
    expected: Vec<u8>,
}

/// The lines of a question: who answered it, `C` where the crate has the same answer as 01 and `R` where only the
/// separate reading has one, and the octets in hex.
pub fn lines(question: &Question) -> Vec<(u8, String)> {
    let of_crate = asked(question, &Oracle);
    let of_reading = asked(question, &Reading).into_iter().chain(only_read(question));
    of_reading
        .map(|asked| {
            let who = if of_crate.contains(&asked) { 'C' } else { 'R' };
            (asked.call, format!("{who} {}", asked.text()))
        })
        .collect()
}

/// What a subject makes of a question, in every form in which it is replayed.
fn asked(question: &Question, subject: &dyn Subject) -> Vec<Asked> {
    let Some(reply) = question.put_to(subject) else {
        return Vec::new();
    };
    match (*question, reply) {
        (Question::HeaderRead { stream, at }, Reply::Header(read)) => vec![Asked::of(1, stream, &[at], header(&read))],
        (Question::Frame { stream, at }, Reply::Frame(answer)) => vec![Asked::of(2, stream, &[at], frame(&answer))],
        (Question::Judge { stream, at }, Reply::Frame(answer)) => judged(stream, at, &answer, subject),
        (Question::BodyCheck { kind, subtype, stored, body }, Reply::Checked(refusal)) => {
            vec![checked(kind, subtype, stored, body, refusal)]
        }
        (Question::Candidate { stream, at }, Reply::Candidate(answer)) => {
            // the scan's own question, which a place beyond the stream does not refuse
            vec![Asked::of(5, stream, &[at], candidate(&answer.value))]
        }
        (Question::PeerRead { body, .. }, Reply::Table(answer, slots)) => table(body, &answer, &slots),
        (Question::RibRead { subtype, body }, Reply::Rib(answer)) => rib(subtype, body, &answer, subject),
        (Question::RibEntry { subtype, body, index, .. }, Reply::Entry(answer)) => {
            vec![Asked::of(12, body, &[subtype.into(), index], entry(&answer))]
        }
        (Question::Step { stream, walk, window, asked }, Reply::Step(answer, after)) => {
            let numbers = [walk.position, walk.finished.into(), window, asked.into()];
            let expected = [row(&answer), octets(&[after.position, after.finished.into()])].concat();
            vec![Asked::of(18, stream, &numbers, expected)]
        }
        (Question::Walk { stream, window, asked }, Reply::Walk(events)) => {
            vec![Asked::of(19, stream, &[window, asked.into()], events.iter().flat_map(row).collect())]
        }
        (Question::TableDumpRead { subtype, body }, Reply::Dump(answer)) => {
            vec![Asked::of(20, body, &[subtype.into()], dump(&answer))]
        }
        (Question::Missing { counters, kind, subtype, body }, Reply::Counted(counted)) => {
            vec![missing(counters, kind, subtype, body, &counted)]
        }
        (_, Reply::Written(answer, after)) => written(question, &answer, &after, subject),
        _ => Vec::new(),
    }
}

/// The writers, each with its output before the call.
fn written(question: &Question, answer: &Answer<usize>, after: &[u8], subject: &dyn Subject) -> Vec<Asked> {
    let expected = [after, &answered(answer.refusal, &[answer.value])].concat();
    match *question {
        Question::HeaderWrite { room, header: Header { timestamp, kind, subtype, stored, micros, .. } } => {
            let numbers = [timestamp as usize, kind.into(), subtype.into(), stored as usize, micros as usize];
            vec![Asked::of(3, room, &numbers, expected)]
        }
        Question::PeerWrite { room, table: NewTable { view: b"", slots: [peer, ..], count: 1, .. } } => {
            one_peer(room, peer, answer, after).into_iter().collect()
        }
        Question::RibBegin { room, head } => {
            let numbers = [head.subtype.into(), head.sequence as usize, head.bits.into()];
            vec![Asked::with(15, room, &head.prefix, &numbers, expected)]
        }
        Question::RibAdd { buffer, length, subtype, entry } => {
            let add = Asked::with(16, buffer, entry.attributes, &added(length, subtype, &entry), expected);
            std::iter::once(add).chain(pushed_twice(question, subject)).collect()
        }
        Question::TableDumpWrite { room, dump: NewDump { subtype, route, attributes } } => {
            let parts = [&route.prefix[..], &route.peer, attributes].concat();
            let numbers = [&[subtype.into()], &route_numbers(&route)[..]].concat();
            vec![Asked::with(21, room, &parts, &numbers, expected)]
        }
        _ => Vec::new(),
    }
}

/// What 01 alone answers: the age, and a single peer at any offset.
fn only_read(question: &Question) -> Vec<Asked> {
    match (*question, question.put_to(&Reading)) {
        (Question::RibEntry { timestamp, .. }, Some(Reply::Entry(Answer { refusal: 0, value }))) => {
            let (more, less) = (value.age.max(0) as usize, (-value.age).max(0) as usize);
            vec![Asked::of(14, &[], &[timestamp as usize, value.originated as usize, more, less], octets(&[1]))]
        }
        (Question::PeerRead { body, .. }, _) if body.len() <= MOST_PARTS => {
            let offsets = [TABLE_HEAD, body.len(), body.len() + 1, usize::MAX];
            offsets.into_iter().map(|at| peer_at(body, at, &reading::read_peer(body, at))).collect()
        }
        _ => Vec::new(),
    }
}

/// The judgement of a record, and of its body alone where it is framed.
fn judged(stream: &[u8], at: usize, answer: &Answer<Frame>, subject: &dyn Subject) -> Vec<Asked> {
    let record = Asked::of(4, stream, &[at], frame(answer));
    let framed = match subject.frame(stream, at) {
        Some(Answer { refusal: 0, value }) => Some(value),
        _ => None,
    };
    let body = framed.map(|Frame { header: Header { kind, subtype, stored, .. }, body, end }| {
        checked(kind, subtype, stored, &stream[body..end], answer.refusal)
    });
    std::iter::once(record).chain(body).collect()
}

/// The check of a body: nothing where it passes.
fn checked(kind: u16, subtype: u16, stored: u32, body: &[u8], refusal: u8) -> Asked {
    let expected = if refusal == 0 { Vec::new() } else { octets(&[refusal.into()]) };
    Asked::of(6, body, &[kind.into(), subtype.into(), stored as usize], expected)
}

/// The check of a table, all of its peers, and the first one alone where the table declares one and has no name.
fn table(body: &[u8], answer: &Answer<PeerTable>, slots: &[Peer]) -> Vec<Asked> {
    if answer.refusal == 9 {
        return Vec::new();
    }
    let PeerTable { collector, view_at, view_len, count } = answer.value;
    let (held, first) = (&slots[..count], TABLE_HEAD + view_len);
    let ends: Vec<usize> = ends(first, held);
    let end = ends.last().copied().unwrap_or(first);
    let head = answered(answer.refusal, &[collector as usize, view_at, view_len, count, first, end]);
    let mut out = vec![Asked::of(7, body, &[], head)];
    if count <= MOST_PARTS {
        let read = |(peer, next): (&Peer, &usize)| one_read(&Ok((*peer, *next)).into());
        let peers: Vec<u8> = held.iter().zip(&ends).flat_map(read).collect();
        out.push(Asked::of(8, body, &[], if answer.refusal == 0 { peers } else { octets(&[answer.refusal.into()]) }));
    }
    if body.get(4..TABLE_HEAD) == Some(&[0, 0, 0, 1]) && !slots.is_empty() {
        let first: Result<(Peer, usize), u8> = if answer.refusal == 0 { Ok((held[0], end)) } else { Err(7) };
        out.push(peer_at(body, TABLE_HEAD, &first.into()));
    }
    out
}

/// Where each peer ends, the first of which starts at an offset.
fn ends(first: usize, peers: &[Peer]) -> Vec<usize> {
    let size = |peer: &Peer| 11 + if peer.has_ipv6() { 12 } else { 0 } + if peer.has_wide_as() { 2 } else { 0 };
    let next = |at: &mut usize, peer: &Peer| {
        *at += size(peer);
        Some(*at)
    };
    peers.iter().scan(first, next).collect()
}

fn peer_at(body: &[u8], at: usize, answer: &Answer<(Peer, usize)>) -> Asked {
    Asked::of(9, body, &[at], one_read(answer))
}

fn one_read(answer: &Answer<(Peer, usize)>) -> Vec<u8> {
    let (Peer { kind, id, address, asn }, next) = answer.value;
    let numbers = octets(&[answer.refusal.into(), kind.into(), id as usize, asn as usize, next]);
    [&numbers[..], &address].concat()
}

/// A table of one peer and no view name is its head and then that peer; without room nothing is written.
fn one_peer(room: &[u8], peer: &Peer, answer: &Answer<usize>, after: &[u8]) -> Option<Asked> {
    let Peer { kind, id, address, asn } = peer;
    let numbers = [TABLE_HEAD, (*kind).into(), *id as usize, *asn as usize];
    let (before, next) = match answer.refusal {
        0 => ([&after[..TABLE_HEAD], &room[TABLE_HEAD..]].concat(), answer.value),
        9 => (room.to_vec(), TABLE_HEAD),
        _ => return None,
    };
    Some(Asked::with(10, &before, address, &numbers, [after, &octets(&[next])].concat()))
}

/// The head of a body, and what a cursor hands out.
fn rib(subtype: u16, body: &[u8], answer: &Answer<RibTable>, subject: &dyn Subject) -> Vec<Asked> {
    let RibTable { sequence, bits, prefix, declared, read } = answer.value;
    let entries = if answer.refusal == 0 { 7 + usize::from(bits).div_ceil(8) } else { 0 };
    let refusal = answer.refusal.into();
    let head = octets(&[refusal, sequence as usize, bits.into(), declared.into(), read.into(), entries]);
    let mut out = vec![Asked::of(11, body, &[subtype.into()], [&head[..], &prefix].concat())];
    if usize::from(read) <= MOST_PARTS {
        let handed = |index| subject.rib_entry(subtype, body, 0, index).map(|answer| entry(&answer));
        let mut all: Vec<u8> = (0..usize::from(read)).filter_map(handed).flatten().collect();
        all.extend(octets(&[if refusal == 0 { CURSOR_END } else { refusal }]));
        out.push(Asked::of(13, body, &[subtype.into()], all));
    }
    out
}

fn added(length: usize, subtype: u16, entry: &NewEntry) -> [usize; 5] {
    [length, subtype.into(), entry.peer_index.into(), entry.originated as usize, entry.path as usize]
}

/// The same entry twice: the second is added to what the first has left.
fn pushed_twice(question: &Question, subject: &dyn Subject) -> Option<Asked> {
    let Question::RibAdd { buffer, length, subtype, entry } = *question else {
        return None;
    };
    let mut out = buffer.to_vec();
    let mut answer = subject.rib_add(&mut out, length, subtype, &entry)?;
    if answer.refusal == 0 {
        answer = subject.rib_add(&mut out, answer.value, subtype, &entry)?;
    }
    let at = 5 + usize::from(*out.get(4).unwrap_or(&0)).div_ceil(8);
    let count = out.get(at..at + 2).map_or(0, |count| usize::from(count[0]) * 256 + usize::from(count[1]));
    let places = answered(answer.refusal, &[answer.value, at, count]);
    let numbers = added(length, subtype, &entry);
    let asked = Asked::with(17, buffer, entry.attributes, &numbers, [out, places].concat());
    (length <= buffer.len()).then_some(asked)
}

/// Numbers, eight octets each.
fn octets(numbers: &[usize]) -> Vec<u8> {
    numbers.iter().flat_map(|&number| (number as u64).to_be_bytes()).collect()
}

/// A refusal alone, or 0 and the values.
fn answered(refusal: u8, values: &[usize]) -> Vec<u8> {
    match refusal {
        0 => octets(&[&[0], values].concat()),
        _ => octets(&[refusal.into()]),
    }
}

fn header(answer: &Answer<Header>) -> Vec<u8> {
    frame(&Answer { refusal: answer.refusal, value: Frame { header: answer.value, body: 0, end: 0 } })
}

fn frame(answer: &Answer<Frame>) -> Vec<u8> {
    let Frame { header: Header { timestamp, kind, subtype, wire, stored, micros }, body, end } = answer.value;
    let lengths = [wire as usize, stored as usize, micros as usize, body, end];
    answered(answer.refusal, &[&[timestamp as usize, kind.into(), subtype.into()], &lengths[..]].concat())
}

fn candidate(answer: &Candidate) -> Vec<u8> {
    match *answer {
        Candidate { stands: true, evidence, end } => octets(&[evidence.into(), end]),
        _ => Vec::new(),
    }
}

fn entry(answer: &Answer<RibEntry>) -> Vec<u8> {
    let RibEntry { peer_index, originated, path, attributes_at, attributes_len, .. } = answer.value;
    let end = attributes_at + attributes_len;
    answered(answer.refusal, &[peer_index.into(), originated as usize, path as usize, attributes_at, end])
}

/// The fields of a route that are numbers.
fn route_numbers(route: &DumpedRoute) -> [usize; 6] {
    let DumpedRoute { view, sequence, bits, status, originated, asn, .. } = *route;
    [view.into(), sequence.into(), bits.into(), status.into(), originated as usize, asn as usize]
}

fn dump(answer: &Answer<TableDump>) -> Vec<u8> {
    let TableDump { route, attributes_at, attributes_end } = answer.value;
    let refusal = octets(&[answer.refusal.into()]);
    let numbers = octets(&[&route_numbers(&route)[..], &[attributes_at, attributes_end]].concat());
    [&refusal[..], &numbers, &route.prefix, &route.peer].concat()
}

/// The counters before and after, and 1 with what is told, or zeros.
fn missing(before: Counters, kind: u16, subtype: u16, body: &[u8], counted: &Counted) -> Asked {
    let told = counted.told.map_or([0; 3], |told| [1, told.missing as usize, told.repeat.into()]);
    let numbers = [&places(before)[..], &[kind.into(), subtype.into()]].concat();
    Asked::of(22, body, &numbers, octets(&[&places(counted.counters)[..], &told].concat()))
}

fn places(counters: Counters) -> [usize; 4] {
    let Counters { table_seen, table, dump_seen, dump } = counters;
    [table_seen.into(), table as usize, dump_seen.into(), dump.into()]
}

fn row(event: &Event) -> Vec<u8> {
    let numbers = match *event {
        Event::Record { start, end, kind, subtype } => [1, start, end, kind.into(), subtype.into(), 0],
        Event::Gap { start, end, refusal, evidence, confirmed } => {
            [2, start, end, refusal.into(), evidence.into(), confirmed.into()]
        }
        Event::End { offset } => [3, offset, 0, 0, 0, 0],
        Event::Window { start, window, refusal } => [4, start, window, refusal.into(), 0, 0],
        Event::Beyond => [5, 0, 0, 8, 0, 0],
    };
    octets(&numbers)
}

impl Asked {
    fn of(call: u8, first: &[u8], numbers: &[usize], expected: Vec<u8>) -> Self {
        Asked::with(call, first, &[], numbers, expected)
    }

    fn with(call: u8, first: &[u8], second: &[u8], numbers: &[usize], expected: Vec<u8>) -> Self {
        Asked { call, first: first.to_vec(), second: second.to_vec(), numbers: octets(numbers), expected }
    }

    /// The octets as signs: the call, the three lengths, the three parts, the answer.
    fn text(&self) -> String {
        let length = |part: &[u8]| (part.len() as u32).to_be_bytes();
        let head =
            [&[self.call][..], &length(&self.first), &length(&self.second), &[self.numbers.len() as u8]].concat();
        let parts = [&head, &self.first, &self.second, &self.numbers, &self.expected];
        let words: Vec<String> = parts.into_iter().filter(|part| !part.is_empty()).map(|part| signs(part)).collect();
        words.join(" ")
    }
}

/// Octets in hex. `g` to `v` are 1 to 16 zeros; a long run is `*`, how far back its octets are looked up, and how many it has.
fn signs(octets: &[u8]) -> String {
    let mut out = String::new();
    let mut at = 0;
    while at < octets.len() {
        let zeros = octets[at..].iter().take(MOST_ZEROS).take_while(|&&octet| octet == 0).count();
        let (distance, length) = longest_run(octets, at);
        at += if length >= SHORTEST_RUN {
            out += &format!("*{distance:02x}{length:06x}");
            length
        } else if zeros > 0 {
            out.push((b'f' + zeros as u8) as char);
            zeros
        } else {
            out += &format!("{:02x}", octets[at]);
            1
        };
    }
    out
}

/// How far back the octets from a place on repeat, and for how many octets.
fn longest_run(octets: &[u8], at: usize) -> (usize, usize) {
    let run = |distance: usize| (at..octets.len()).take_while(|&i| octets[i] == octets[i - distance]).count();
    let runs = (1..=FARTHEST.min(at)).map(|distance| (distance, run(distance)));
    runs.fold((0, 0), |best, next| if next.1 > best.1 { next } else { best })
}
