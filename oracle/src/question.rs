//! One question with its input, put to any subject, and the reply with the lent memory as the call left it.

use crate::answers::{
    Address, Answer, Builder, Candidate, Counted, Counters, Event, Found, Frame, Header, NewDump, NewEntry, NewRows,
    Peer, PeerTable, RibEntry, RibStep, RibTable, Rowed, TableDump, Tried, Walk,
};
use crate::subject::{NewHead, NewTable, Subject};

/// `room` is the lent output before the call, `slots` the lent slots.
#[derive(Debug, Clone, Copy)]
pub enum Question<'a> {
    HeaderRead { stream: &'a [u8], at: usize },
    HeaderWrite { room: &'a [u8], header: Header },
    Frame { stream: &'a [u8], at: usize },
    Judge { stream: &'a [u8], at: usize },
    BodyCheck { kind: u16, subtype: u16, stored: u32, body: &'a [u8] },
    PeerRead { body: &'a [u8], slots: &'a [Peer] },
    PeerFind { slots: &'a [Peer], count: usize, address: Address },
    PeerAdd { slots: &'a [Peer], count: usize, peer: Peer },
    PeerWrite { room: &'a [u8], table: NewTable<'a> },
    RibRead { subtype: u16, body: &'a [u8] },
    RibEntry { subtype: u16, body: &'a [u8], timestamp: u32, index: usize },
    RibNext { subtype: u16, body: &'a [u8], at: usize, left: u16 },
    RibBegin { room: &'a [u8], head: NewHead },
    RibAdd { buffer: &'a [u8], length: usize, subtype: u16, entry: NewEntry<'a> },
    RibPush { buffer: &'a [u8], subtype: u16, builder: Builder, entry: NewEntry<'a> },
    RibPushRows { buffer: &'a [u8], subtype: u16, builder: Builder, rows: NewRows<'a> },
    TableDumpRead { subtype: u16, body: &'a [u8] },
    TableDumpWrite { room: &'a [u8], dump: NewDump<'a> },
    Missing { counters: Counters, kind: u16, subtype: u16, body: &'a [u8] },
    Candidate { stream: &'a [u8], at: usize },
    Aligned { stream: &'a [u8], from: usize, asked: u8 },
    Scan { stream: &'a [u8], from: usize, window: usize, asked: u8 },
    Step { stream: &'a [u8], walk: Walk, window: usize, asked: u8 },
    Walk { stream: &'a [u8], window: usize, asked: u8 },
    Causes { stream: &'a [u8], window: usize, asked: u8 },
}

#[derive(Debug, Clone, PartialEq, Eq)]
pub enum Reply {
    Header(Answer<Header>),
    Frame(Answer<Frame>),
    Checked(u8),
    Id(Answer<usize>),
    Table(Answer<PeerTable>, Vec<Peer>),
    Added(Answer<usize>, Vec<Peer>),
    Written(Answer<usize>, Vec<u8>),
    Rib(Answer<RibTable>),
    Entry(Answer<RibEntry>),
    RibStep(Answer<RibStep>),
    Pushed(Answer<Builder>, Vec<u8>),
    Rowed(Answer<Rowed>, Vec<u8>),
    Dump(Answer<TableDump>),
    Counted(Counted),
    Candidate(Answer<Candidate>),
    Tried(Tried),
    Found(Found),
    Step(Event, Walk),
    Walk(Vec<Event>),
    Causes(Vec<u8>),
}

/// Calls a writer on a copy of the output.
fn written(room: &[u8], call: impl FnOnce(&mut [u8]) -> Option<Answer<usize>>) -> Option<Reply> {
    let mut out = room.to_vec();
    call(&mut out).map(|answer| Reply::Written(answer, out))
}

impl Question<'_> {
    pub fn put_to(&self, subject: &dyn Subject) -> Option<Reply> {
        match *self {
            Question::HeaderRead { stream, at } => subject.header_read(stream, at).map(Reply::Header),
            Question::Frame { stream, at } => subject.frame(stream, at).map(Reply::Frame),
            Question::Judge { stream, at } => subject.judge(stream, at).map(Reply::Frame),
            Question::BodyCheck { kind, subtype, stored, body } => {
                subject.body_check(kind, subtype, stored, body).map(Reply::Checked)
            }
            Question::Candidate { stream, at } => subject.candidate(stream, at).map(Reply::Candidate),
            Question::Aligned { stream, from, asked } => subject.aligned(stream, from, asked).map(Reply::Tried),
            Question::Scan { stream, from, window, asked } => {
                subject.scan(stream, from, window, asked).map(Reply::Found)
            }
            Question::Step { stream, mut walk, window, asked } => {
                let event = subject.step(stream, &mut walk, window, asked)?;
                Some(Reply::Step(event, walk))
            }
            Question::Walk { stream, window, asked } => subject.walk(stream, window, asked).map(Reply::Walk),
            Question::Causes { stream, window, asked } => subject.causes(stream, window, asked).map(Reply::Causes),
            _ => self.put_table_question(subject),
        }
    }

    fn put_table_question(&self, subject: &dyn Subject) -> Option<Reply> {
        match *self {
            Question::PeerRead { body, slots } => {
                let mut slots = slots.to_vec();
                let answer = subject.peer_read(body, &mut slots)?;
                Some(Reply::Table(answer, slots))
            }
            Question::PeerFind { slots, count, address } => subject.peer_find(slots, count, &address).map(Reply::Id),
            Question::PeerAdd { slots, count, peer } => {
                let mut slots = slots.to_vec();
                let answer = subject.peer_add(&mut slots, count, &peer)?;
                Some(Reply::Added(answer, slots))
            }
            Question::RibRead { subtype, body } => subject.rib_read(subtype, body).map(Reply::Rib),
            Question::RibEntry { subtype, body, timestamp, index } => {
                subject.rib_entry(subtype, body, timestamp, index).map(Reply::Entry)
            }
            Question::RibNext { subtype, body, at, left } => {
                subject.rib_next(subtype, body, at, left).map(Reply::RibStep)
            }
            Question::TableDumpRead { subtype, body } => subject.table_dump_read(subtype, body).map(Reply::Dump),
            Question::Missing { counters, kind, subtype, body } => {
                subject.missing(counters, kind, subtype, body).map(Reply::Counted)
            }
            _ => self.put_writing_question(subject),
        }
    }

    fn put_writing_question(&self, subject: &dyn Subject) -> Option<Reply> {
        match *self {
            Question::HeaderWrite { room, header } => written(room, |out| subject.header_write(out, &header)),
            Question::PeerWrite { room, table } => written(room, |out| subject.peer_write(out, &table)),
            Question::RibBegin { room, head } => written(room, |out| subject.rib_begin(out, &head)),
            Question::TableDumpWrite { room, dump } => written(room, |out| subject.table_dump_write(out, &dump)),
            Question::RibAdd { buffer, length, subtype, entry } => {
                written(buffer, |out| subject.rib_add(out, length, subtype, &entry))
            }
            Question::RibPush { buffer, subtype, builder, entry } => {
                let mut out = buffer.to_vec();
                let answer = subject.rib_push(&mut out, subtype, builder, &entry)?;
                Some(Reply::Pushed(answer, out))
            }
            Question::RibPushRows { buffer, subtype, builder, rows } => {
                let mut out = buffer.to_vec();
                let answer = subject.rib_push_rows(&mut out, subtype, builder, &rows)?;
                Some(Reply::Rowed(answer, out))
            }
            _ => unreachable!("every other question is put above"),
        }
    }

    /// The kind of question, for counting.
    pub fn kind(&self) -> &'static str {
        match self {
            Question::HeaderRead { .. } => "header read",
            Question::HeaderWrite { .. } => "header write",
            Question::Frame { .. } => "frame",
            Question::Judge { .. } => "judge",
            Question::BodyCheck { .. } => "body check",
            Question::PeerRead { .. } => "peer table read",
            Question::PeerFind { .. } => "peer find",
            Question::PeerAdd { .. } => "peer add",
            Question::PeerWrite { .. } => "peer table write",
            Question::RibRead { .. } => "rib read",
            Question::RibEntry { .. } => "rib entry",
            Question::RibNext { .. } => "rib next",
            Question::RibBegin { .. } => "rib begin",
            Question::RibAdd { .. } => "rib add",
            Question::RibPush { .. } => "rib push",
            Question::RibPushRows { .. } => "rib push by rows",
            Question::TableDumpRead { .. } => "table dump read",
            Question::TableDumpWrite { .. } => "table dump write",
            Question::Missing { .. } => "missing rows",
            Question::Candidate { .. } => "candidate",
            Question::Aligned { .. } => "aligned try",
            Question::Scan { .. } => "scan",
            Question::Step { .. } => "walk step",
            Question::Walk { .. } => "whole walk",
            Question::Causes { .. } => "causes",
        }
    }

    /// The octets that are read: a stream or a body.
    pub fn input(&self) -> &[u8] {
        match *self {
            Question::HeaderRead { stream, .. }
            | Question::Frame { stream, .. }
            | Question::Judge { stream, .. }
            | Question::Candidate { stream, .. }
            | Question::Aligned { stream, .. }
            | Question::Scan { stream, .. }
            | Question::Step { stream, .. }
            | Question::Walk { stream, .. }
            | Question::Causes { stream, .. } => stream,
            Question::BodyCheck { body, .. }
            | Question::PeerRead { body, .. }
            | Question::RibRead { body, .. }
            | Question::RibEntry { body, .. }
            | Question::RibNext { body, .. }
            | Question::TableDumpRead { body, .. }
            | Question::Missing { body, .. } => body,
            Question::RibPush { buffer, .. } | Question::RibPushRows { buffer, .. } => buffer,
            Question::RibAdd { buffer, length, .. } => buffer.get(..length).unwrap_or(buffer),
            _ => &[],
        }
    }

    /// The same question of other octets, where a stream or a body is what is asked about.
    pub fn with_input<'b>(&self, input: &'b [u8]) -> Option<Question<'b>>
    where
        Self: 'b,
    {
        match *self {
            Question::Walk { window, asked, .. } => Some(Question::Walk { stream: input, window, asked }),
            Question::Causes { window, asked, .. } => Some(Question::Causes { stream: input, window, asked }),
            Question::Step { walk, window, asked, .. } => Some(Question::Step { stream: input, walk, window, asked }),
            Question::HeaderRead { at, .. } => Some(Question::HeaderRead { stream: input, at }),
            Question::Judge { at, .. } => Some(Question::Judge { stream: input, at }),
            Question::Frame { at, .. } => Some(Question::Frame { stream: input, at }),
            Question::RibRead { subtype, .. } => Some(Question::RibRead { subtype, body: input }),
            Question::TableDumpRead { subtype, .. } => Some(Question::TableDumpRead { subtype, body: input }),
            Question::Missing { counters, kind, subtype, .. } => {
                Some(Question::Missing { counters, kind, subtype, body: input })
            }
            _ => None,
        }
    }
}
