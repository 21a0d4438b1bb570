//! The smallest input for each known difference, answered by the crate and by the reading.

use crate::answers::{Answer, Event, Header, NewEntry, Peer};
use crate::make;
use crate::oracle::{number_of_words, with_own_parsers, CrateWalk, Oracle};
use crate::question::{Question, Reply};
use crate::subject::{NewHead, NewTable, Reading, Subject};
use crate::text::hex;

/// One difference: its name, the input, and the two answers.
pub struct Row {
    pub name: &'static str,
    pub input: String,
    pub of_crate: String,
    pub of_reading: String,
}

const WINDOW: usize = 1 << 20;
const ASKED: u8 = 3;

pub fn all() -> Vec<Row> {
    let mut rows = vec![
        walk_row("cut_body_is_named_before_the_unknown_type", &make::header(3, 14, 12, 0x81)),
        walk_row("cut_body_is_named_before_the_short_length", &make::header(3, 17, 11, 1)),
        walk_row("size_limit_is_named_first", &make::header(0, 0, 0, 16_777_217)),
    ];
    rows.extend(long_rows());
    rows.extend([33, 49].into_iter().flat_map(timed_rows));
    rows.extend(own_parser_rows());
    rows.extend(table_rows());
    rows.extend(writer_rows());
    rows
}

/// A long input is given as its header and how many zeros, and what follows them.
fn long_rows() -> [Row; 2] {
    let zeros = vec![0; 16_777_217];
    let head = make::header(0, 32, 0, 16_777_217);
    let after = make::record(16, 0, &make::state_change_body(0, 1)).repeat(3);
    let shown = format!("{}, 16777217 times 00, {}", hex(&head), hex(&after));
    let framed = shown_row("body_above_16_mib", shown, &[&head[..], &zeros, &after].concat());
    let head = make::header(0, 13, 2, 16_777_217);
    let shown = format!("{}, 16777217 times 00", hex(&head));
    let carried = shown_row("body_above_16_mib", shown, &[&head[..], &zeros].concat());
    [framed, carried]
}

/// A whole header with microseconds, a wire length that leaves no room for them, and a header cut before them.
fn timed_rows(kind: u16) -> [Row; 3] {
    let name = "microseconds_of_33_and_49_are_left_in_the_body";
    let whole = [make::header(0, kind, 0, 4), vec![0, 0, 0, 1]].concat();
    [
        question_row(name, &format!("header {}", hex(&whole)), &Question::HeaderRead { stream: &whole, at: 0 }),
        walk_row(name, &make::header(0, kind, 0, 0)),
        walk_row(name, &make::header(0, kind, 0, 4)),
    ]
}

/// Differences that show only while the crate's own parsers are in place of 01's body check, and its own scan of 02's.
fn own_parser_rows() -> [Row; 7] {
    let refused = make::header(0, 32, 0, 0);
    let in_envelope = [make::header(0, 16, 0, 9), vec![0, 1, 0, 2, 0, 0, 0, 1, 10]].concat();
    let in_table = make::record(13, 1, &make::peer_table(&[], 1, &[0; 6]));
    let mut longer = make::state_change_body(0, 1);
    longer.push(0);
    let short_open = [vec![0, 1, 0, 2], make::bgp_message(1, 29)].concat();
    let least_message = make::record(16, 1, &make::message_body(1, 1, 1, 19));
    [
        own_row("own_parser_takes_a_cut_address_for_a_failed_read", &[&refused[..], &in_envelope].concat()),
        own_row("own_parser_takes_a_cut_address_for_a_failed_read", &[&refused[..], &in_table].concat()),
        own_row("own_parser_leaves_octets_of_a_state_change", &make::record(16, 0, &longer)),
        own_row("own_parser_knows_the_short_state_change", &make::record(16, 0, &[0, 1, 0, 2, 0, 1, 0, 2])),
        own_row("own_parser_knows_the_short_open", &make::record(16, 1, &short_open)),
        own_row("own_check_of_the_scan_has_no_least_open", &[vec![0], least_message.repeat(3)].concat()),
        own_row("own_scan_takes_up_on_type_5", &[vec![0], make::record(5, 1, &[0; 16]).repeat(3)].concat()),
    ]
}

fn walk_row(name: &'static str, stream: &[u8]) -> Row {
    shown_row(name, hex(stream), stream)
}

fn shown_row(name: &'static str, input: String, stream: &[u8]) -> Row {
    Row { name, input, of_crate: crate_walk(stream), of_reading: reading_walk(stream) }
}

fn own_row(name: &'static str, stream: &[u8]) -> Row {
    with_own_parsers(|| walk_row(name, stream))
}

fn crate_walk(stream: &[u8]) -> String {
    let answers = CrateWalk::new(stream, 0, WINDOW, ASKED).map(|(event, cause)| match cause {
        Some(words) => format!("{} ({words})", line(with_refusal(event, number_of_words(&words)))),
        None => line(event),
    });
    answers.collect::<Vec<_>>().join(" | ")
}

/// The crate's own number in place of the reading's.
fn with_refusal(event: Event, number: u8) -> Event {
    match event {
        Event::Gap { start, end, evidence, confirmed, .. } => {
            Event::Gap { start, end, refusal: number, evidence, confirmed }
        }
        Event::Window { start, window, .. } => Event::Window { start, window, refusal: number },
        other => other,
    }
}

fn reading_walk(stream: &[u8]) -> String {
    let events = Reading.walk(stream, WINDOW, ASKED).unwrap_or_default();
    events.into_iter().map(line).collect::<Vec<_>>().join(" | ")
}

fn line(event: Event) -> String {
    event.line().replace('\t', " ")
}

fn table_rows() -> [Row; 3] {
    let slot = |last: u8| Peer { kind: 2, id: 0, address: make_address(last), asn: 1 };
    let slots = [slot(1), slot(1), slot(2), Peer::default()];
    let twice = Question::PeerAdd { slots: &slots, count: 3, peer: slot(3) };
    let view = make::peer_table(&[0xff], 0, &[]);
    let prefix = [vec![0, 0, 0, 0, 9, 0x0a, 0xff], vec![0, 0]].concat();
    [
        question_row("next_id_counts_distinct_addresses", "peers A, A, B; add C", &twice),
        question_row(
            "view_name_that_is_no_text_is_emptied",
            &hex(&view),
            &Question::PeerRead { body: &view, slots: &[] },
        ),
        question_row(
            "host_bits_are_kept_by_the_reader",
            &format!("subtype 2, {}", hex(&prefix)),
            &Question::RibRead { subtype: 2, body: &prefix },
        ),
    ]
}

fn make_address(last: u8) -> [u8; 16] {
    let mut address = [0; 16];
    address[3] = last;
    address
}

fn writer_rows() -> [Row; 4] {
    let slots = [Peer { kind: 0, id: 0, address: [0; 16], asn: 65_536 }];
    let table = NewTable { collector: 0, view: &[], slots: &slots, count: 1 };
    let header = Header { kind: 17, stored: 4_294_967_292, ..Header::default() };
    let body = make::rib_head(0, 0, 0, 0);
    let length = body.len();
    let buffer = [body, vec![0; 12]].concat();
    let entry = NewEntry { path: 1, ..NewEntry::default() };
    let mut prefix = [0; 16];
    prefix[..2].copy_from_slice(&[0x0a, 0xff]);
    let head = NewHead { subtype: 2, sequence: 0, bits: 9, prefix };
    [
        question_row(
            "host_bits_are_kept_by_the_writer",
            "subtype 2, prefix 0aff of 9 bits",
            &Question::RibBegin { room: &[0xaa; 9], head },
        ),
        question_row(
            "wide_as_is_cut_silently",
            "one peer of type 0, AS 65536",
            &Question::PeerWrite { room: &[0xaa; 19], table },
        ),
        question_row(
            "header_length_turns_over",
            "type 17, stored length 4294967292",
            &Question::HeaderWrite { room: &[0xaa; 16], header },
        ),
        question_row(
            "path_number_is_dropped_silently",
            "subtype 2, body 00000000000000, entry with path number 1 and no attributes",
            &Question::RibAdd { buffer: &buffer, length, subtype: 2, entry },
        ),
    ]
}

fn question_row(name: &'static str, input: &str, question: &Question) -> Row {
    let told = |subject: &dyn Subject| question.put_to(subject).map_or_else(String::new, |reply| short(&reply));
    Row { name, input: input.to_string(), of_crate: told(&Oracle), of_reading: told(&Reading) }
}

/// The part of a reply that the rows are about.
fn short(reply: &Reply) -> String {
    match reply {
        Reply::Header(Answer { refusal, value: Header { stored, micros, .. } }) => {
            format!("refusal {refusal}, stored length {stored}, microseconds {micros}")
        }
        Reply::Added(answer, _) => format!("refusal {}, id {}", answer.refusal, answer.value),
        Reply::Table(answer, _) => format!("refusal {}, view name of {} octets", answer.refusal, answer.value.view_len),
        Reply::Rib(answer) => format!("refusal {}, prefix {}", answer.refusal, hex(&answer.value.prefix[..2])),
        Reply::Written(answer, out) => format!("refusal {}, wrote {}", answer.refusal, hex(&out[..answer.value])),
        other => format!("{other:?}"),
    }
}
