//! What a walk hands out of a torn file that nobody wrote: the records, and routes of peers that have none.

use crate::answers::Event;
use crate::reading;
use crate::subject::Subject;
use std::collections::HashSet;

/// 01's listing program asks for these.
pub const WINDOW: usize = 1 << 20;
pub const ASKED: u8 = 3;
/// The octets of a record that nothing is held to.
const TIMESTAMP: usize = 4;

/// What was written: the records that a walk hands out of the file before it is torn, by their octets and by those
/// after the timestamp, and the peer indexes of their routes.
pub struct Written<'a> {
    records: HashSet<&'a [u8]>,
    undated: HashSet<&'a [u8]>,
    peers: HashSet<u16>,
}

impl<'a> Written<'a> {
    pub fn of(subject: &dyn Subject, file: &'a [u8]) -> Self {
        let mut written = Written { records: HashSet::new(), undated: HashSet::new(), peers: HashSet::new() };
        for event in walk(subject, file, ASKED) {
            if let Event::Record { start, end, .. } = event {
                written.records.insert(&file[start..end]);
                written.undated.insert(&file[start + TIMESTAMP..end]);
                written.peers.extend(peers_of(file, start));
            }
        }
        written
    }
}

fn walk(subject: &dyn Subject, stream: &[u8], asked: u8) -> Vec<Event> {
    subject.walk(stream, WINDOW, asked).unwrap_or_default()
}

/// The peer index of each route in the record at an offset; none where it is no RIB.
fn peers_of(stream: &[u8], start: usize) -> Vec<u16> {
    let frame = reading::judge(stream, start).value;
    let (subtype, body) = (frame.header.subtype, &stream[frame.body..frame.end]);
    let head = reading::read_rib(subtype, body);
    let mut peers = Vec::new();
    if frame.header.kind != 13 || head.refusal != 0 {
        return peers;
    }
    // sequence number, prefix bits, the prefix and the count stand before the entries
    let mut at = 7 + usize::from(head.value.bits).div_ceil(8);
    for left in (1..=head.value.read).rev() {
        let step = reading::next_entry(subtype, body, at, left).value;
        peers.push(step.entry.peer_index);
        at = step.at;
    }
    peers
}

/// What was seen in torn streams.
#[derive(Debug, Clone, Copy, PartialEq, Eq, Default)]
pub struct Tally {
    /// Streams of which a record was handed out that nobody wrote.
    pub streams: usize,
    /// Those records.
    pub records: usize,
    /// Those of them that stand straight before a gap or a refusal 11.
    pub before_gaps: usize,
    /// Those of the others of which the timestamp alone was not written so.
    pub misdated: usize,
    /// Routes in those records by a peer index that no route of the whole file has.
    pub strays: usize,
    /// Octets of all streams, and those of them that no record has.
    pub octets: usize,
    pub lost: usize,
}

impl Tally {
    pub fn add(&mut self, subject: &dyn Subject, written: &Written, stream: &[u8], asked: u8) {
        let events = walk(subject, stream, asked);
        let before = self.records;
        self.octets += stream.len();
        self.lost += stream.len();
        // a record is never the last answer
        for pair in events.windows(2) {
            let Event::Record { start, end, .. } = pair[0] else {
                continue;
            };
            self.lost -= end - start;
            if written.records.contains(&stream[start..end]) {
                continue;
            }
            self.records += 1;
            if matches!(pair[1], Event::Gap { .. } | Event::Window { .. }) {
                self.before_gaps += 1;
            } else if written.undated.contains(&stream[start + TIMESTAMP..end]) {
                self.misdated += 1;
            }
            self.strays += peers_of(stream, start).iter().filter(|&peer| !written.peers.contains(peer)).count();
        }
        self.streams += usize::from(self.records > before);
    }
}

/// The file without some octets.
pub fn cut_out(file: &[u8], at: usize, count: usize) -> Vec<u8> {
    [&file[..at], &file[at + count..]].concat()
}

/// The file with zeros for some octets.
pub fn zeroed(file: &[u8], at: usize, count: usize) -> Vec<u8> {
    let mut stream = file.to_vec();
    stream[at..at + count].fill(0);
    stream
}
