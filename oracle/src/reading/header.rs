//! The common header, read and written, and the record that it frames (RFC 6396, 2 and 3; 01, Header and lengths; 02,
//! wish 1).

use super::octets::{be16, be32, Pen};
use crate::answers::{Answer, Frame, Header};

const COMMON: usize = 12;
const WITH_MICROS: usize = 16;

pub fn is_known(kind: u16) -> bool {
    matches!(kind, 0..=13 | 16 | 17 | 32 | 33 | 48 | 49)
}

/// Whether four octets of microseconds follow the common header.
fn is_timed(kind: u16) -> bool {
    matches!(kind, 17 | 33 | 49)
}

fn header_size(kind: u16) -> usize {
    if is_timed(kind) {
        WITH_MICROS
    } else {
        COMMON
    }
}

/// The header at an offset of a stream: 8 beyond it, then 1, 2, 3, 1.
pub fn read_header(stream: &[u8], at: usize) -> Answer<Header> {
    match stream.get(at..) {
        Some(rest) => front_header(rest).into(),
        None => Err(8).into(),
    }
}

/// The header at the front of what is left.
#[inline]
fn front_header(rest: &[u8]) -> Result<Header, u8> {
    if rest.len() < COMMON {
        return Err(1);
    }
    let kind = be16(rest, 4);
    let wire = be32(rest, 8);
    if !is_known(kind) {
        return Err(2);
    }
    let (stored, micros) = if is_timed(kind) { timed_fields(rest, wire)? } else { (wire, 0) };
    Ok(Header { timestamp: be32(rest, 0), kind, subtype: be16(rest, 6), wire, stored, micros })
}

/// The stored length and the microseconds of a type that has them.
#[inline]
fn timed_fields(rest: &[u8], wire: u32) -> Result<(u32, u32), u8> {
    if wire < 4 {
        return Err(3);
    }
    if rest.len() < WITH_MICROS {
        return Err(1);
    }
    Ok((wire - 4, be32(rest, COMMON)))
}

/// The record at an offset of a stream: the header's refusals, then 4 where the body runs past the stream.
pub fn frame(stream: &[u8], at: usize) -> Answer<Frame> {
    framed(stream, at).into()
}

/// The body of the record at an offset; no octets where none is framed.
pub fn body(stream: &[u8], at: usize) -> &[u8] {
    let Frame { body, end, .. } = frame(stream, at).value;
    &stream[body..end]
}

#[inline]
pub fn framed(stream: &[u8], at: usize) -> Result<Frame, u8> {
    let header = front_header(stream.get(at..).ok_or(8)?)?;
    with_body(stream, at, header)
}

/// The header alone, for the scan, which asks other things before it asks for the body.
#[inline]
pub fn header_at(stream: &[u8], at: usize) -> Result<Header, u8> {
    front_header(stream.get(at..).ok_or(8)?)
}

/// The record of a header that was read at `at`.
#[inline]
pub fn with_body(stream: &[u8], at: usize, header: Header) -> Result<Frame, u8> {
    let body = at + header_size(header.kind);
    let stored = header.stored as usize;
    if stream.len() - body < stored {
        return Err(4);
    }
    Ok(Frame { header, body, end: body + stored })
}

/// Writes a header at the front of the output: 2, then 10, then 9. The header's `wire` is not looked at.
pub fn write_header(out: &mut [u8], header: &Header) -> Answer<usize> {
    wire_of(header).and_then(|wire| put_header(out, header, wire)).into()
}

/// The length that the header's octets carry.
fn wire_of(header: &Header) -> Result<u32, u8> {
    if !is_known(header.kind) {
        return Err(2);
    }
    if is_timed(header.kind) {
        return header.stored.checked_add(4).ok_or(10);
    }
    if header.micros != 0 {
        return Err(10);
    }
    Ok(header.stored)
}

fn put_header(out: &mut [u8], header: &Header, wire: u32) -> Result<usize, u8> {
    if out.len() < header_size(header.kind) {
        return Err(9);
    }
    let mut pen = Pen::new(out);
    pen.put(&header.timestamp.to_be_bytes());
    pen.put(&header.kind.to_be_bytes());
    pen.put(&header.subtype.to_be_bytes());
    pen.put(&wire.to_be_bytes());
    if is_timed(header.kind) {
        pen.put(&header.micros.to_be_bytes());
    }
    Ok(pen.written())
}
