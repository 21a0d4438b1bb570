//! The common header, and the record that it frames.

use crate::{PeerIndex, Refusal, Rib, TableDump, boundary, part};

/// A length as the header has it on the wire. For types 17, 33 and 49 it counts the four octets of microseconds.
#[derive(Debug, Clone, Copy, PartialEq, Eq, PartialOrd, Ord, Hash)]
pub struct WireLength(pub u32);

/// The length of a body alone.
#[derive(Debug, Clone, Copy, PartialEq, Eq, PartialOrd, Ord, Hash)]
pub struct StoredLength(pub u32);

/// A common header (RFC 6396, 2 and 3), as it was read.
#[derive(Debug, Clone, Copy, PartialEq, Eq, Hash)]
#[non_exhaustive]
pub struct Header {
    /// Seconds since 1970.
    pub timestamp: u32,
    /// The type. 5, 12, 13, 16 and 17 are carried.
    pub kind: u16,
    /// The subtype, whose meaning depends on the type.
    pub subtype: u16,
    /// The length that stands in the header.
    pub wire: WireLength,
    /// The length of the body.
    pub stored: StoredLength,
    /// The microseconds of types 17, 33 and 49, also of 1,000,000 and more; 0 for every other type.
    pub micros: u32,
}

impl Header {
    /// Reads the header at an offset.
    ///
    /// # Errors
    ///
    /// [`Refusal::Beyond`] for an offset beyond the stream, [`Refusal::TruncatedHeader`], [`Refusal::UnknownType`],
    /// [`Refusal::ShortLength`], and [`Refusal::TruncatedHeader`] where the microseconds are cut off.
    ///
    /// ```
    /// use mrt::{Header, Refusal, StoredLength, WireLength};
    ///
    /// let stream = [0, 0, 0, 1, 0, 17, 0, 4, 0, 0, 0, 30, 0, 0, 0, 9];
    /// let header = Header::read(&stream, 0)?;
    /// assert_eq!((header.timestamp, header.kind, header.subtype, header.micros), (1, 17, 4, 9));
    /// assert_eq!((header.wire, header.stored), (WireLength(30), StoredLength(26)));
    /// assert_eq!(Header::read(&stream, 17), Err(Refusal::Beyond));
    /// # Ok::<(), Refusal>(())
    /// ```
    pub fn read(stream: &[u8], at: usize) -> Result<Header, Refusal> {
        boundary::read_header(stream, at).map(Header::of)
    }

    /// The values of the library's answer. Each has the width of its field.
    fn of([timestamp, kind, subtype, wire, stored, micros]: [u64; 6]) -> Header {
        Header {
            timestamp: timestamp as u32,
            kind: kind as u16,
            subtype: subtype as u16,
            wire: WireLength(wire as u32),
            stored: StoredLength(stored as u32),
            micros: micros as u32,
        }
    }
}

/// A common header that is to be written. The writer finds the wire length.
#[derive(Debug, Clone, Copy, PartialEq, Eq, Hash)]
pub struct NewHeader {
    /// Seconds since 1970.
    pub timestamp: u32,
    /// The type, which must be a known one.
    pub kind: u16,
    /// The subtype.
    pub subtype: u16,
    /// The length of the body.
    pub stored: StoredLength,
    /// The microseconds, 0 for a type other than 17, 33 and 49.
    pub micros: u32,
}

impl NewHeader {
    /// Writes the header at the front of the output, and says how many octets it takes: 16 for types 17, 33 and 49, else
    /// 12.
    ///
    /// # Errors
    ///
    /// [`Refusal::UnknownType`]; [`Refusal::TooLarge`] for microseconds that have no place, or where they have one a
    /// stored length above 4,294,967,291; [`Refusal::NoRoom`].
    ///
    /// ```
    /// use mrt::{Header, NewHeader, Refusal, StoredLength};
    ///
    /// let header = NewHeader { timestamp: 1, kind: 13, subtype: 2, stored: StoredLength(7), micros: 0 };
    /// let mut out = [0; 12];
    /// assert_eq!(header.write(&mut out), Ok(12));
    /// assert_eq!(NewHeader::from(Header::read(&out, 0)?), header);
    /// assert_eq!(header.write(&mut out[..11]), Err(Refusal::NoRoom));
    /// # Ok::<(), Refusal>(())
    /// ```
    pub fn write(&self, out: &mut [u8]) -> Result<usize, Refusal> {
        boundary::write_header(out, self.timestamp, self.kind, self.subtype, self.stored.0, self.micros)
    }
}

impl From<Header> for NewHeader {
    fn from(header: Header) -> NewHeader {
        let Header { timestamp, kind, subtype, stored, micros, .. } = header;
        NewHeader { timestamp, kind, subtype, stored, micros }
    }
}

/// Octets that a header frames. Whether its body makes sense has not been asked: that is a [`Record`].
#[derive(Debug, Clone, Copy, PartialEq, Eq, Hash)]
#[non_exhaustive]
pub struct Frame<'a> {
    /// The header.
    pub header: Header,
    /// Where the header starts in the stream.
    pub start: usize,
    /// Where the body ends in the stream.
    pub end: usize,
    /// The body, a part of the stream.
    pub body: &'a [u8],
}

impl<'a> Frame<'a> {
    /// Frames the record at an offset. Any known type is framed.
    ///
    /// # Errors
    ///
    /// Those of [`Header::read`], then [`Refusal::TruncatedBody`].
    ///
    /// ```
    /// use mrt::{Frame, Refusal};
    ///
    /// let stream = [0, 0, 0, 0, 0, 12, 0, 1, 0, 0, 0, 2, 7, 8];
    /// let frame = Frame::read(&stream, 0)?;
    /// assert_eq!((frame.start, frame.end, frame.body), (0, 14, &[7, 8][..]));
    /// assert_eq!(Frame::read(&stream[..13], 0), Err(Refusal::TruncatedBody));
    /// # Ok::<(), Refusal>(())
    /// ```
    pub fn read(stream: &'a [u8], at: usize) -> Result<Frame<'a>, Refusal> {
        boundary::frame(stream, at).map(|values| Frame::of(stream, at, values))
    }

    /// The frame of an answer's values, at a place of the stream that was asked.
    fn of(stream: &'a [u8], start: usize, [header @ .., body, end]: [u64; 8]) -> Frame<'a> {
        Frame { header: Header::of(header), start, end: end as usize, body: part(stream, body, end) }
    }
}

/// A record: a [`Frame`] whose type and subtype are carried and whose body meets their check.
#[derive(Debug, Clone, Copy, PartialEq, Eq, Hash)]
#[non_exhaustive]
pub struct Record<'a> {
    /// The header.
    pub header: Header,
    /// Where the header starts in the stream.
    pub start: usize,
    /// Where the body ends in the stream.
    pub end: usize,
    /// The body, a part of the stream.
    pub body: &'a [u8],
}

impl<'a> Record<'a> {
    /// Frames the record at an offset and puts its body to the check.
    ///
    /// # Errors
    ///
    /// Those of [`Frame::read`], then [`Refusal::NotCarried`], [`Refusal::OtherSubtype`], [`Refusal::BodyNotMet`].
    ///
    /// ```
    /// use mrt::{Record, Refusal};
    ///
    /// // A peer table with no peer, and one whose body is an octet short.
    /// let stream = [0, 0, 0, 0, 0, 13, 0, 1, 0, 0, 0, 8, 0, 0, 0, 0, 0, 0, 0, 0];
    /// assert_eq!(Record::read(&stream, 0)?.body.len(), 8);
    /// let short = [0, 0, 0, 0, 0, 13, 0, 1, 0, 0, 0, 7, 0, 0, 0, 0, 0, 0, 0];
    /// assert_eq!(Record::read(&short, 0), Err(Refusal::BodyNotMet));
    /// # Ok::<(), Refusal>(())
    /// ```
    pub fn read(stream: &'a [u8], at: usize) -> Result<Record<'a>, Refusal> {
        boundary::judge(stream, at).map(|[start, values @ ..]| Record::of(stream, start, values))
    }

    /// The record of an answer's values.
    pub(crate) fn of(stream: &'a [u8], start: u64, values: [u64; 8]) -> Record<'a> {
        let Frame { header, start, end, body } = Frame::of(stream, start as usize, values);
        Record { header, start, end, body }
    }

    /// The head of a PEER_INDEX_TABLE (type 13, subtype 1), or `None` for any other record.
    pub fn peer_index(&self) -> Option<PeerIndex<'a>> {
        match (self.header.kind, self.header.subtype) {
            (13, 1) => PeerIndex::read(self.body).ok(),
            _ => None,
        }
    }

    /// The head of a RIB record (type 13, subtypes 2 to 5 and 8 to 11), or `None` for any other record.
    pub fn rib(&self) -> Option<Rib<'a>> {
        match self.header.kind {
            13 => Rib::read(self.body, self.header.subtype).ok(),
            _ => None,
        }
    }

    /// The body of a TABLE_DUMP record (type 12, subtypes 1 and 2), or `None` for any other record.
    pub fn table_dump(&self) -> Option<TableDump<'a>> {
        match self.header.kind {
            12 => TableDump::read(self.body, self.header.subtype).ok(),
            _ => None,
        }
    }
}

impl<'a> From<Record<'a>> for Frame<'a> {
    fn from(record: Record<'a>) -> Frame<'a> {
        let Record { header, start, end, body } = record;
        Frame { header, start, end, body }
    }
}
