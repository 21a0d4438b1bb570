//! The known differences between the crate and 01, each a predicate named after the difference.

use crate::answers::{Address, Event, Peer};
use crate::make;
use crate::oracle::TOO_LARGE;
use crate::question::{Question, Reply};
use crate::reading;
use crate::subject::{NewTable, Reading};
use crate::untimed;

/// Whether a difference explains that the crate and the reading replied as they did.
type Explains = fn(&Question, &Reply, &Reply) -> bool;

const KNOWN: [(&str, Explains); 11] = [
    ("header_length_turns_over", header_length_turns_over),
    ("cut_body_is_named_before_the_unknown_type", cut_body_is_named_before_the_unknown_type),
    ("cut_body_is_named_before_the_short_length", cut_body_is_named_before_the_short_length),
    ("size_limit_is_named_first", size_limit_is_named_first),
    ("body_above_16_mib", body_above_16_mib),
    ("view_name_that_is_no_text_is_emptied", view_name_that_is_no_text_is_emptied),
    ("next_id_counts_distinct_addresses", next_id_counts_distinct_addresses),
    ("wide_as_is_cut_silently", wide_as_is_cut_silently),
    ("host_bits_are_kept_by_the_reader", host_bits_are_kept_by_the_reader),
    ("host_bits_are_kept_by_the_writer", host_bits_are_kept_by_the_writer),
    ("path_number_is_dropped_silently", path_number_is_dropped_silently),
];

/// No row of the table: it may come together with any difference there (`difference`).
const LEFT_IN_THE_BODY: &str = "microseconds_of_33_and_49_are_left_in_the_body";

/// The names of all known differences.
pub fn names() -> impl Iterator<Item = &'static str> {
    std::iter::once(LEFT_IN_THE_BODY).chain(KNOWN.iter().map(|&(name, _)| name))
}

/// Whether the crate may have nothing to say: it has no offsets, slots or lent output of the caller's, and no walk but
/// a fresh one. Where the reading accepts a call, the crate has an answer too.
pub fn may_be_silent(question: &Question, of_reading: &Reply) -> bool {
    let refused = refusal(of_reading);
    match *question {
        Question::HeaderRead { .. } | Question::Frame { .. } | Question::Judge { .. } => refused == 8,
        Question::Candidate { stream, at } | Question::Aligned { stream, from: at, .. } => at > stream.len(),
        // The crate has no check of a body by itself, no cursor and no builder of the caller's.
        Question::BodyCheck { .. } | Question::RibNext { .. } | Question::RibPush { .. } => true,
        // Its file for type 12 is not at hand.
        Question::TableDumpRead { .. } | Question::TableDumpWrite { .. } => true,
        // It compares no two sequence numbers.
        Question::Missing { .. } => true,
        // It is given all rows, and writes them at once, where a builder is that of a whole body.
        Question::RibPushRows { .. } => true,
        // A scan may stop among the octets that are put before the place in question.
        Question::Scan { .. } => true,
        Question::Step { stream, walk, .. } => walk.finished || walk.position > stream.len(),
        Question::HeaderWrite { .. } => refused != 0,
        Question::PeerFind { slots, count, .. } => refused == 8 && (count > slots.len() || count > 65_535),
        Question::PeerRead { .. } | Question::RibBegin { .. } => refused == 9,
        Question::PeerAdd { .. } => matches!(refused, 8 | 9),
        // Where 01 says 10 and the crate would write all the same, there may be no room for that.
        Question::PeerWrite { table, .. } => matches!(refused, 8..=10) || std::str::from_utf8(table.view).is_err(),
        // The crate's reader takes a body with fewer entries than declared, or with octets left over.
        Question::RibAdd { .. } => matches!(refused, 7..=10),
        Question::RibRead { .. } | Question::RibEntry { .. } | Question::Walk { .. } | Question::Causes { .. } => false,
    }
}

/// The name of the difference that explains the two replies. The crate's is to be the one without microseconds of types
/// 33 and 49, or to differ from that one as it does elsewhere.
pub fn difference(question: &Question, of_crate: &Reply, of_reading: &Reply) -> Option<&'static str> {
    let Some(plain) = untimed::stream(question) else {
        return another(question, of_crate, of_reading);
    };
    let asked_so = question.with_input(&plain)?;
    let without = untimed::reply(question, &asked_so)?;
    let why = another(&asked_so, of_crate, &without);
    if without == *of_reading {
        return why;
    }
    (without == *of_crate || why.is_some()).then_some(LEFT_IN_THE_BODY)
}

fn another(question: &Question, of_crate: &Reply, of_reading: &Reply) -> Option<&'static str> {
    KNOWN.iter().find(|(_, explains)| explains(question, of_crate, of_reading)).map(|&(name, _)| name)
}

/// A length that does not fit with its microseconds: the crate's sum of it and 4 turns over, 01 says 10.
fn header_length_turns_over(question: &Question, of_crate: &Reply, of_reading: &Reply) -> bool {
    let Question::HeaderWrite { header, .. } = question else {
        return false;
    };
    let timed = make::TIMED.contains(&header.kind);
    timed && header.stored > 4_294_967_291 && refusal(of_crate) == 0 && refusal(of_reading) == 10
}

fn refusal(reply: &Reply) -> u8 {
    match reply {
        Reply::Header(answer) => answer.refusal,
        Reply::Frame(answer) => answer.refusal,
        Reply::Table(answer, _) => answer.refusal,
        Reply::Id(answer) | Reply::Added(answer, _) | Reply::Written(answer, _) => answer.refusal,
        Reply::Rib(answer) => answer.refusal,
        Reply::Entry(answer) => answer.refusal,
        Reply::Checked(refusal) => *refusal,
        Reply::RibStep(answer) => answer.refusal,
        Reply::Pushed(answer, _) => answer.refusal,
        Reply::Rowed(answer, _) => answer.refusal,
        Reply::Dump(answer) => answer.refusal,
        Reply::Candidate(answer) => answer.refusal,
        _ => 0,
    }
}

/// Two unlike refusals, or the unlike ones of two lists of causes: the crate's number and the reading's.
fn unlike_numbers(of_crate: &Reply, of_reading: &Reply) -> Vec<(u8, u8)> {
    match (of_crate, of_reading) {
        (Reply::Frame(a), Reply::Frame(b)) => vec![(a.refusal, b.refusal)],
        (Reply::Causes(a), Reply::Causes(b)) if a.len() == b.len() => {
            let pairs = a.iter().copied().zip(b.iter().copied());
            pairs.filter(|(a, b)| a != b).collect()
        }
        _ => Vec::new(),
    }
}

/// The first unlike numbers, where each of them is a matter of which cause the crate names first.
fn first_named(of_crate: &Reply, of_reading: &Reply) -> Option<(u8, u8)> {
    let pairs = unlike_numbers(of_crate, of_reading);
    let is_order = |pair: &(u8, u8)| matches!(pair, (4, 2 | 3) | (TOO_LARGE, 2 | 4));
    pairs.iter().all(is_order).then(|| pairs.first().copied())?
}

/// The crate reads the body before it looks at the type's number.
fn cut_body_is_named_before_the_unknown_type(_: &Question, of_crate: &Reply, of_reading: &Reply) -> bool {
    first_named(of_crate, of_reading) == Some((4, 2))
}

/// The crate reads the body before it reports a type 17 length under 4.
fn cut_body_is_named_before_the_short_length(_: &Question, of_crate: &Reply, of_reading: &Reply) -> bool {
    first_named(of_crate, of_reading) == Some((4, 3))
}

/// A declared body above 16 MiB: the crate names the size, 01 the cut body or the unknown type.
fn size_limit_is_named_first(_: &Question, of_crate: &Reply, of_reading: &Reply) -> bool {
    matches!(first_named(of_crate, of_reading), Some((TOO_LARGE, _)))
}

/// A body above 16 MiB that is there: the crate does not read it, 01 has no such limit.
fn body_above_16_mib(question: &Question, of_crate: &Reply, of_reading: &Reply) -> bool {
    match (question, of_crate, of_reading) {
        (Question::Frame { stream, at } | Question::Judge { stream, at }, Reply::Frame(answer), _) => {
            answer.refusal == TOO_LARGE && is_oversized(stream, *at)
        }
        (Question::Aligned { stream, from, .. }, _, _) => chain_meets_oversized(stream, *from),
        (Question::Step { stream, walk, .. }, _, _) => walk_meets_oversized(stream, walk.position),
        (Question::Walk { stream, .. }, Reply::Walk(a), Reply::Walk(b)) => {
            let place = a.iter().zip(b).find(|(a, b)| a != b).map(|(_, event)| start_of(event));
            place.is_some_and(|at| walk_meets_oversized(stream, at))
        }
        (Question::Causes { stream, .. }, _, _) => reading_meets_oversized(question, stream),
        _ => false,
    }
}

fn start_of(event: &Event) -> usize {
    match *event {
        Event::Record { start, .. } | Event::Gap { start, .. } | Event::Window { start, .. } => start,
        Event::End { offset } => offset,
        Event::Beyond => 0,
    }
}

/// A record with a body above 16 MiB that is there.
fn is_oversized(stream: &[u8], at: usize) -> bool {
    let frame = reading::frame(stream, at);
    frame.refusal == 0 && frame.value.header.stored > 16 * 1024 * 1024
}

/// One of the records that a walk judges at an offset: the one there, or one of those after its own end.
fn walk_meets_oversized(stream: &[u8], at: usize) -> bool {
    is_oversized(stream, at) || chain_meets_oversized(stream, reading::frame(stream, at).value.end)
}

fn chain_meets_oversized(stream: &[u8], from: usize) -> bool {
    let mut at = from;
    while at < stream.len() && !is_oversized(stream, at) {
        let judged = reading::judge(stream, at);
        if judged.refusal != 0 {
            return false;
        }
        at = judged.value.end;
    }
    at < stream.len()
}

/// The walk behind a list of causes comes to such a record somewhere.
fn reading_meets_oversized(question: &Question, stream: &[u8]) -> bool {
    let Question::Causes { window, asked, .. } = *question else {
        return false;
    };
    match (Question::Walk { stream, window, asked }).put_to(&Reading) {
        Some(Reply::Walk(events)) => events.iter().any(|event| walk_meets_oversized(stream, start_of(event))),
        _ => false,
    }
}

/// The crate keeps a view name as text; 01 keeps its octets.
fn view_name_that_is_no_text_is_emptied(question: &Question, of_crate: &Reply, of_reading: &Reply) -> bool {
    let (Question::PeerRead { body, .. }, Reply::Table(a, _), Reply::Table(b, slots)) =
        (question, of_crate, of_reading)
    else {
        return false;
    };
    let name = &body[b.value.view_at..b.value.view_at + b.value.view_len];
    let mut same = *a;
    same.value.view_len = b.value.view_len;
    std::str::from_utf8(name).is_err() && a.value.view_len == 0 && *of_reading == Reply::Table(same, slots.clone())
}

/// The crate's next id is the number of distinct addresses, so it takes a place that is in use; 01's is the count.
fn next_id_counts_distinct_addresses(question: &Question, of_crate: &Reply, of_reading: &Reply) -> bool {
    let (Question::PeerAdd { slots, count, .. }, Reply::Added(a, _), Reply::Added(b, _)) =
        (question, of_crate, of_reading)
    else {
        return false;
    };
    let is_last = |id: usize| reading::find_peer(slots, *count, &address_of(&slots[id])).value == id;
    let distinct = (0..*count).filter(|&id| is_last(id)).count();
    let full = if *count == 65_535 { 10 } else { 9 };
    let expected = if *count == 65_535 || *count == slots.len() { full } else { 0 };
    distinct < *count && a.value == distinct && b.refusal == expected
}

fn address_of(peer: &Peer) -> Address {
    Address { ipv6: peer.has_ipv6(), octets: peer.address }
}

/// The crate writes the low 16 bits of an AS number that does not fit; 01 says 10.
fn wide_as_is_cut_silently(question: &Question, of_crate: &Reply, of_reading: &Reply) -> bool {
    let Question::PeerWrite { room, table } = *question else {
        return false;
    };
    let cut = |peer: &Peer| Peer { asn: if peer.has_wide_as() { peer.asn } else { peer.asn & 0xffff }, ..*peer };
    let slots: Vec<Peer> = table.slots.iter().map(cut).collect();
    let asked_so = Question::PeerWrite { room, table: NewTable { slots: &slots, ..table } };
    refusal(of_reading) == 10 && asked_so.put_to(&Reading).as_ref() == Some(of_crate)
}

/// The crate keeps the bits after a prefix, 01 clears them in the answer.
fn host_bits_are_kept_by_the_reader(_: &Question, of_crate: &Reply, of_reading: &Reply) -> bool {
    let (Reply::Rib(a), Reply::Rib(b)) = (of_crate, of_reading) else {
        return false;
    };
    let mut same = *a;
    clear(&mut same.value.prefix, a.value.bits);
    same == *b
}

fn clear(octets: &mut [u8], bits: u8) {
    for (place, octet) in octets.iter_mut().enumerate() {
        let kept = usize::from(bits).saturating_sub(8 * place).min(8);
        *octet &= (0xff00 >> kept) as u8;
    }
}

/// The crate's writer keeps them too.
fn host_bits_are_kept_by_the_writer(question: &Question, of_crate: &Reply, of_reading: &Reply) -> bool {
    let (Question::RibBegin { head, .. }, Reply::Written(answer, octets)) = (question, of_crate) else {
        return false;
    };
    let mut same = octets.clone();
    if answer.refusal == 0 {
        clear(&mut same[5..answer.value - 2], head.bits);
    }
    Reply::Written(*answer, same) == *of_reading
}

/// The crate leaves out a path number where the subtype has none; 01 says 10.
fn path_number_is_dropped_silently(question: &Question, of_crate: &Reply, of_reading: &Reply) -> bool {
    let Question::RibAdd { buffer, length, subtype, mut entry } = *question else {
        return false;
    };
    entry.path = 0;
    let asked_so = Question::RibAdd { buffer, length, subtype, entry };
    refusal(of_reading) == 10 && asked_so.put_to(&Reading).as_ref() == Some(of_crate)
}
