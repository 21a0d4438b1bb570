//! Headers and single records. The crate reads from the front of what is left, so an offset beyond the stream is no
//! question for it. Its writer grows its own output and takes no unknown type.

use super::words;
use crate::answers::{Answer, Frame, Header};
use crate::make;
use bgpkit_part::models::{CommonHeader, EntryType};
use bgpkit_part::parser::mrt::mrt_header::parse_common_header_with_bytes;
use bgpkit_part::parser::mrt::mrt_record::chunk_mrt_record;
use bgpkit_part::RawMrtRecord;

pub fn read(stream: &[u8], at: usize) -> Option<Answer<Header>> {
    let mut rest = stream.get(at..)?;
    let read = parse_common_header_with_bytes(&mut rest)
        .map(|parsed| values(&parsed.header, &parsed.raw_bytes))
        .map_err(|error| words::number(&error.to_string()));
    Some(read.into())
}

/// The wire length is taken from the octets that the crate kept.
fn values(header: &CommonHeader, octets: &[u8]) -> Header {
    Header {
        timestamp: header.timestamp,
        kind: header.entry_type as u16,
        subtype: header.entry_subtype,
        wire: u32::from_be_bytes([octets[8], octets[9], octets[10], octets[11]]),
        stored: header.length,
        micros: header.microsecond_timestamp.unwrap_or(0),
    }
}

pub fn frame(stream: &[u8], at: usize) -> Option<Answer<Frame>> {
    Some(chunk(stream.get(at..)?).map(|record| place(&record, at)).into())
}

pub fn judge(stream: &[u8], at: usize) -> Option<Answer<Frame>> {
    let judged = chunk(stream.get(at..)?).and_then(|record| {
        let place = place(&record, at);
        let parsed = record.parse().map(|_| place);
        parsed.map_err(|error| words::number(&error.to_string()))
    });
    Some(judged.into())
}

fn chunk(mut rest: &[u8]) -> Result<RawMrtRecord, u8> {
    chunk_mrt_record(&mut rest).map_err(|error| words::number(&error.to_string()))
}

fn place(record: &RawMrtRecord, at: usize) -> Frame {
    let body = at + record.header_bytes.len();
    Frame { header: values(&record.common_header, &record.header_bytes), body, end: body + record.message_bytes.len() }
}

/// Asked only where microseconds are present exactly for the types that have them, and where there is room. The crate
/// writes them wherever they are handed in.
pub fn write(out: &mut [u8], header: &Header) -> Option<Answer<usize>> {
    let entry_type = EntryType::try_from(header.kind).ok()?;
    let timed = make::TIMED.contains(&header.kind);
    if !timed && header.micros != 0 {
        return None;
    }
    let octets = CommonHeader {
        timestamp: header.timestamp,
        microsecond_timestamp: timed.then_some(header.micros),
        entry_type,
        entry_subtype: header.subtype,
        length: header.stored,
    }
    .encode();
    out.get_mut(..octets.len())?.copy_from_slice(&octets);
    Some(Ok(octets.len()).into())
}
