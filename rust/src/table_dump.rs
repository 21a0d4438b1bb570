//! TABLE_DUMP bodies, read and written.

use crate::peers::address_of;
use crate::{Prefix, Refusal, boundary, part};
use core::net::IpAddr;

/// The body of a TABLE_DUMP record (RFC 6396, 4.2): one route, with the peer that it came from.
///
/// ```
/// use mrt::{Refusal, TableDump};
///
/// let body = [
///     0, 0, 0, 9, 198, 51, 100, 7, 24, 1, 0, 0, 0, 50, // view, sequence, prefix, status, originated time
///     192, 0, 2, 1, 251, 240, 0, 2, 3, 4, // peer, AS, attributes
/// ];
/// let dump = TableDump::read(&body, 1)?;
/// assert_eq!((dump.sequence, dump.asn, dump.attributes), (9, 64_496, &[3, 4][..]));
/// assert_eq!((dump.network().to_string().as_str(), dump.prefix.bits), ("198.51.100.7", 24));
/// assert_eq!(dump.peer_address().to_string(), "192.0.2.1");
/// assert_eq!(dump.age(60), 10);
/// assert_eq!(TableDump::read(&body[..23], 1), Err(Refusal::BodyNotMet));
/// # Ok::<(), Refusal>(())
/// ```
#[derive(Debug, Clone, Copy, PartialEq, Eq, Hash)]
#[non_exhaustive]
pub struct TableDump<'a> {
    /// The view number.
    pub view: u16,
    /// The sequence number. It begins again at 0 after 65,535.
    pub sequence: u16,
    /// The prefix as it stands: bits after it are kept.
    pub prefix: Prefix,
    /// The status octet, which means nothing. Writers set it to 1.
    pub status: u8,
    /// When the route was originated, in seconds since 1970.
    pub originated: u32,
    /// The peer's address. One of four octets has the first four.
    pub peer: [u8; 16],
    /// The peer's AS number.
    pub asn: u16,
    /// The attributes, a part of the body.
    pub attributes: &'a [u8],
    /// The subtype that the body was read as.
    pub subtype: u16,
}

impl<'a> TableDump<'a> {
    /// Reads a body.
    ///
    /// # Errors
    ///
    /// [`Refusal::OtherSubtype`] for a subtype other than 1 (IPv4) and 2 (IPv6); [`Refusal::BodyNotMet`] for a body that is
    /// not as long as its attributes say, or more prefix bits than an address has.
    pub fn read(body: &'a [u8], subtype: u16) -> Result<TableDump<'a>, Refusal> {
        let (values, [octets, peer]) = boundary::read_table_dump(body, subtype)?;
        let [view, sequence, bits, status, originated, asn, start, end] = values;
        Ok(TableDump {
            view: view as u16,
            sequence: sequence as u16,
            prefix: Prefix { octets, bits: bits as u8 },
            status: status as u8,
            originated: originated as u32,
            peer,
            asn: asn as u16,
            attributes: part(body, start, end),
            subtype,
        })
    }

    /// The prefix as an address, of the family that the subtype says, with any bits after it.
    pub const fn network(&self) -> IpAddr {
        address_of(self.subtype == 2, self.prefix.octets)
    }

    /// The peer's address, of the family that the subtype says. OpenBGPD gives the IPv6 routes of an IPv4 peer that peer's
    /// four octets and zeros, which is an IPv6 address here.
    pub const fn peer_address(&self) -> IpAddr {
        address_of(self.subtype == 2, self.peer)
    }

    /// How old the route was when its record was written, in seconds: below zero where it is later than the record.
    pub fn age(&self, timestamp: u32) -> i64 {
        boundary::age(timestamp, self.originated)
    }
}

/// The body of a TABLE_DUMP record that is to be written.
///
/// ```
/// use mrt::{NewHeader, NewTableDump, Peer, Prefix, Record, Refusal, StoredLength};
///
/// let peer = Peer::new("192.0.2.1".parse().unwrap(), 0, 64_496);
/// let mut octets = [0; 16];
/// octets[..3].copy_from_slice(&[198, 51, 100]);
/// let dump = NewTableDump {
///     subtype: 1,
///     view: 0,
///     sequence: 9,
///     prefix: Prefix { octets, bits: 24 },
///     status: 1,
///     originated: 50,
///     peer: peer.addr,
///     asn: peer.asn,
///     attributes: &[3, 4],
/// };
/// let mut out = [0; 36];
/// let (head, room) = out.split_at_mut(12);
/// let length = dump.write(room)?;
/// NewHeader { timestamp: 60, kind: 12, subtype: 1, stored: StoredLength(length as u32), micros: 0 }.write(head)?;
///
/// let read = Record::read(&out, 0)?.table_dump().unwrap();
/// assert_eq!(NewTableDump::from(read), dump);
/// # Ok::<(), Refusal>(())
/// ```
#[derive(Debug, Clone, Copy, PartialEq, Eq, Hash)]
pub struct NewTableDump<'a> {
    /// The subtype: 1 for IPv4, 2 for IPv6.
    pub subtype: u16,
    /// The view number.
    pub view: u16,
    /// The sequence number.
    pub sequence: u16,
    /// The prefix. Its octets are written as they stand, four or all by the subtype.
    pub prefix: Prefix,
    /// The status octet: 1, as RFC 6396 asks.
    pub status: u8,
    /// When the route was originated, in seconds since 1970.
    pub originated: u32,
    /// The peer's address, of which four octets or all are written by the subtype.
    pub peer: [u8; 16],
    /// The peer's AS number. There are two octets for it, and one that needs more is refused.
    pub asn: u32,
    /// The attributes.
    pub attributes: &'a [u8],
}

impl NewTableDump<'_> {
    /// Writes the body at the front of the output, and says how many octets it takes: 22 for IPv4 or 46 for IPv6, and the
    /// attributes.
    ///
    /// # Errors
    ///
    /// [`Refusal::OtherSubtype`]; [`Refusal::TooLarge`] for more prefix bits than an address has, an AS above 65,535, or
    /// attributes above 65,535 octets; [`Refusal::NoRoom`].
    pub fn write(&self, out: &mut [u8]) -> Result<usize, Refusal> {
        boundary::write_table_dump(out, self)
    }
}

impl<'a> From<TableDump<'a>> for NewTableDump<'a> {
    fn from(dump: TableDump<'a>) -> NewTableDump<'a> {
        let TableDump { view, sequence, prefix, status, originated, peer, asn, attributes, subtype } = dump;
        NewTableDump { subtype, view, sequence, prefix, status, originated, peer, asn: asn.into(), attributes }
    }
}
