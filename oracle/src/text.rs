//! Questions and replies as text: octets in hex, all other numbers decimal.

use crate::answers::{NewDump, NewEntry, Peer};
use crate::question::{Question, Reply};

/// Longer inputs are shown by their first octets.
const SHOWN_OCTETS: usize = 2_000;

pub fn hex(octets: &[u8]) -> String {
    octets.iter().map(|octet| format!("{octet:02x}")).collect()
}

/// Octets as a field of a line, where an empty field would be lost.
pub fn octets(octets: &[u8]) -> String {
    match octets {
        [] => "-".to_string(),
        _ => hex(octets),
    }
}

/// Slots as octets, 25 each: type 1, id 4, address 16, AS 4.
pub fn slots(slots: &[Peer]) -> String {
    let one = |peer: &Peer| {
        let mut out = vec![peer.kind];
        out.extend(peer.id.to_be_bytes());
        out.extend(peer.address);
        out.extend(peer.asn.to_be_bytes());
        out
    };
    octets(&slots.iter().flat_map(one).collect::<Vec<u8>>())
}

/// The first octets of an input.
pub fn head(octets: &[u8]) -> String {
    match octets.get(..SHOWN_OCTETS) {
        Some(head) => format!("{}.. ({} octets)", hex(head), octets.len()),
        None => hex(octets),
    }
}

/// What was asked beside the octets that are read.
pub fn settings(question: &Question) -> String {
    match question {
        Question::Walk { window, asked, .. } | Question::Causes { window, asked, .. } => {
            format!("window {window}, {asked} confirmations")
        }
        Question::Step { walk, window, asked, .. } => format!("{walk:?}, window {window}, {asked} confirmations"),
        Question::Scan { from, window, asked, .. } => format!("from {from}, window {window}, {asked} confirmations"),
        Question::Aligned { from, asked, .. } => format!("from {from}, {asked} confirmations"),
        Question::HeaderRead { at, .. }
        | Question::Frame { at, .. }
        | Question::Judge { at, .. }
        | Question::Candidate { at, .. } => format!("at {at}"),
        Question::BodyCheck { kind, subtype, stored, .. } => format!("type {kind}, subtype {subtype}, stored {stored}"),
        Question::RibRead { subtype, .. } | Question::TableDumpRead { subtype, .. } => format!("subtype {subtype}"),
        Question::RibEntry { subtype, timestamp, index, .. } => {
            format!("subtype {subtype}, timestamp {timestamp}, entry {index}")
        }
        Question::RibNext { subtype, at, left, .. } => format!("subtype {subtype}, at {at}, {left} left"),
        Question::Missing { counters, kind, subtype, .. } => format!("type {kind}, subtype {subtype}, {counters:?}"),
        _ => table_settings(question),
    }
}

fn table_settings(question: &Question) -> String {
    match question {
        Question::PeerRead { slots: held, .. } => format!("slots {}", slots(held)),
        Question::PeerFind { slots: held, count, address } => {
            format!("slots {}, count {count}, IPv6 {}, address {}", slots(held), address.ipv6, hex(&address.octets))
        }
        Question::PeerAdd { slots: held, count, peer } => {
            format!("slots {}, count {count}, peer {}", slots(held), slots(&[*peer]))
        }
        Question::PeerWrite { room, table } => {
            let (view, held) = (octets(table.view), slots(table.slots));
            format!(
                "room {}, collector {}, view {view}, slots {held}, count {}",
                room.len(),
                table.collector,
                table.count
            )
        }
        Question::HeaderWrite { room, header } => format!("room {}, {header:?}", room.len()),
        Question::RibBegin { room, head } => format!("room {}, {head:?}", room.len()),
        Question::TableDumpWrite { room, dump: NewDump { subtype, route, attributes } } => {
            format!("room {}, subtype {subtype}, {route:?}, attributes {}", room.len(), octets(attributes))
        }
        Question::RibAdd { buffer, length, subtype, entry } => {
            format!("subtype {subtype}, length {length} of {}, {}", buffer.len(), new_entry(entry))
        }
        Question::RibPush { subtype, builder, entry, .. } => {
            format!("subtype {subtype}, {builder:?}, {}", new_entry(entry))
        }
        Question::RibPushRows { subtype, builder, rows, .. } => {
            format!("subtype {subtype}, {builder:?}, rows {:?}, attributes {}", rows.values, octets(rows.attributes))
        }
        other => format!("{other:?}"),
    }
}

fn new_entry(entry: &NewEntry) -> String {
    let NewEntry { peer_index, originated, path, attributes } = *entry;
    format!("peer {peer_index}, time {originated}, path {path}, attributes {}", octets(attributes))
}

pub fn reply(reply: &Reply) -> String {
    match reply {
        Reply::Table(answer, held) => format!("{answer:?}, slots {}", slots(held)),
        Reply::Added(answer, held) => format!("{answer:?}, slots {}", slots(held)),
        Reply::Written(answer, out) => format!("{answer:?}, output {}", octets(out)),
        Reply::Pushed(answer, out) => format!("{answer:?}, output {}", octets(out)),
        Reply::Rowed(answer, out) => format!("{answer:?}, output {}", octets(out)),
        other => format!("{other:?}"),
    }
}
