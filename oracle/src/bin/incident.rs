//! The incident, told with a file small enough to read: why one confirming record is not enough.
//!
//! A file is torn where a record began. An announcement in the torn record carries five communities whose octets read
//! as a header of type 16, subtype 0, length 20 and the first half of a state change. Of such a record the type, the
//! subtype, the length and the address family are held to something; all else may be any octets, here the announced
//! prefix and the next record's first eight.

use mrt_oracle::answers::Event;
use mrt_oracle::make;
use mrt_oracle::oracle::Oracle;
use mrt_oracle::subject::{Reading, Subject};
use mrt_oracle::text::hex;
use std::ops::Range;

const WINDOW: usize = 1 << 20;
/// How many octets of the third record were not written: its header, its envelope and a part of its marker.
const LOST: usize = 40;

/// An UPDATE that announces 10.0.`third`.0/24 with these communities.
fn update(third: u8, communities: &[[u16; 2]]) -> Vec<u8> {
    let mut attributes = vec![0x40, 1, 1, 0, 0x40, 2, 6, 2, 1, 0, 0, 0xfd, 0xe9, 0x40, 3, 4, 10, 0, 0, 1];
    if !communities.is_empty() {
        attributes.extend([0xc0, 8, 4 * communities.len() as u8]);
        attributes.extend(communities.iter().flatten().flat_map(|half| half.to_be_bytes()));
    }
    let mut rest = vec![0, 0];
    rest.extend((attributes.len() as u16).to_be_bytes());
    rest.extend(attributes);
    rest.extend([24, 10, 0, third]);
    let mut body = make::message_body(4, 1, 2, 19 + rest.len() as u16);
    let message_rest = body.len() - rest.len();
    body[message_rest..].copy_from_slice(&rest);
    make::record(16, 4, &body)
}

/// As a state change: the timestamp, type 16 and subtype 0, length 20, two AS numbers, interface and address family 1.
const COMMUNITIES: [[u16; 2]; 5] = [[64_500, 100], [16, 0], [0, 20], [0, 64_501], [64_500, 1]];

/// Nine records, the third with all the communities.
fn whole_file() -> Vec<Vec<u8>> {
    (1..=9u8).map(|number| update(number, &COMMUNITIES[..if number == 3 { 5 } else { 1 }])).collect()
}

/// The torn file, and where each of its records, or what is left of it, stands.
fn torn_file() -> (Vec<u8>, Vec<Range<usize>>) {
    let mut stream = Vec::new();
    let mut places = Vec::new();
    for (index, record) in whole_file().iter().enumerate() {
        let start = stream.len();
        stream.extend_from_slice(&record[if index == 2 { LOST } else { 0 }..]);
        places.push(start..stream.len());
    }
    (stream, places)
}

/// What an answer means for the records that were written.
fn meaning(event: &Event, places: &[Range<usize>]) -> String {
    let number = |at: usize| 1 + places.iter().position(|place| place.contains(&at)).unwrap_or(places.len());
    let boundary = |at: usize| at == places.last().map_or(0, |place| place.end) || places.iter().any(|p| p.start == at);
    match *event {
        Event::Record { start, end, .. } if places.contains(&(start..end)) => format!("record {}", number(start)),
        Event::Record { start, end, .. } => {
            let swallowed = places.iter().filter(|place| start <= place.start && place.end <= end).count();
            format!(
                "NO RECORD: from inside {} to inside {}, swallows {swallowed} whole ones",
                number(start),
                number(end)
            )
        }
        Event::Gap { start, end, .. } if boundary(end) => {
            format!("lost from record {} on, up to {}", number(start), number(end))
        }
        Event::Gap { start, end, .. } => {
            format!("lost from record {} on, TAKES UP INSIDE {}", number(start), number(end))
        }
        Event::End { .. } => "end".to_string(),
        _ => "gives up".to_string(),
    }
}

/// One walk, as the crate and as the reading give it.
fn tell(stream: &[u8], places: &[Range<usize>], asked: u8) {
    println!("\n{asked} confirming record(s) asked for");
    println!("  {:<28} {:<28} what it is", "the crate", "the reading of 01");
    let walk = |subject: &dyn Subject| subject.walk(stream, WINDOW, asked).unwrap_or_default();
    let (of_crate, of_reading) = (walk(&Oracle), walk(&Reading));
    for (ours, theirs) in of_crate.iter().zip(&of_reading) {
        let line = |event: &Event| event.line().replace('\t', " ");
        println!("  {:<28} {:<28} {}", line(ours), line(theirs), meaning(ours, places));
    }
    let kept = |events: &[Event]| {
        let is_written =
            |event: &&Event| matches!(**event, Event::Record { start, end, .. } if places.contains(&(start..end)));
        events.iter().filter(is_written).count()
    };
    let same = if of_crate == of_reading { "the two agree" } else { "THE TWO DIFFER" };
    println!(
        "  of {} records that are whole in the file, {} were handed out; {same}",
        places.len() - 1,
        kept(&of_crate)
    );
}

fn main() {
    let (stream, places) = torn_file();
    println!("Nine records, {} octets. Of record 3 the first {LOST} octets were never written.", stream.len());
    for (index, place) in places.iter().enumerate() {
        println!("  record {} stands at {}..{}", index + 1, place.start, place.end);
    }
    // an announced prefix of four octets stands after the communities and ends the record
    let at = places[2].end - 4 - 4 * COMMUNITIES.len();
    let names: Vec<String> = COMMUNITIES.iter().map(|[high, low]| format!("{high}:{low}")).collect();
    println!("Octets {at}..{} are record 3's communities, its prefix, and the first eight of record 4:", at + 32);
    println!("  {}, 10.0.3.0/24", names.join(", "));
    println!("  {}", hex(&stream[at..at + 32]));
    println!("  They read as a state change: type 16, subtype 0, length 20, peer AS 0, address family 1.");
    tell(&stream, &places, 1);
    tell(&stream, &places, 3);
}
