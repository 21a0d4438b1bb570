//! RIB bodies, read.

use crate::peers::address_of;
use crate::rows::Rows;
use crate::{Refusal, boundary, part};
use core::iter::FusedIterator;
use core::net::IpAddr;

/// A prefix: so many bits at the front of 16 octets.
#[derive(Debug, Clone, Copy, PartialEq, Eq, PartialOrd, Ord, Hash, Default)]
pub struct Prefix {
    /// The octets. An IPv4 prefix has the first four.
    pub octets: [u8; 16],
    /// How many bits count.
    pub bits: u8,
}

/// The head of a RIB record's body (RFC 6396, 4.3.2; RFC 8050, 4).
///
/// ```
/// use mrt::{Refusal, Rib};
///
/// let body = [0, 0, 0, 9, 24, 198, 51, 100, 0, 1, 0, 7, 0, 0, 0, 50, 0, 2, 1, 1];
/// let rib = Rib::read(&body, 2)?;
/// assert_eq!((rib.sequence, rib.declared, rib.count), (9, 1, 1));
/// assert_eq!((rib.network().to_string().as_str(), rib.prefix.bits), ("198.51.100.0", 24));
/// for entry in rib.entries() {
///     assert_eq!((entry.peer, entry.attributes), (7, &[1, 1][..]));
///     assert_eq!(entry.age(60), 10);
/// }
/// assert_eq!(Rib::read(&body, 1), Err(Refusal::OtherSubtype));
/// # Ok::<(), Refusal>(())
/// ```
#[derive(Debug, Clone, Copy, PartialEq, Eq, Hash)]
#[non_exhaustive]
pub struct Rib<'a> {
    /// The sequence number.
    pub sequence: u32,
    /// The prefix, with the bits after it cleared.
    pub prefix: Prefix,
    /// How many entries the body says it has.
    pub declared: u16,
    /// How many entries it has: reading stops at the first one that does not fit.
    pub count: u16,
    /// The subtype that the body was read as.
    pub subtype: u16,
    body: &'a [u8],
    entries: usize,
}

impl<'a> Rib<'a> {
    /// Reads the head of a body, and counts its entries.
    ///
    /// # Errors
    ///
    /// [`Refusal::OtherSubtype`] for a subtype other than 2 to 5 and 8 to 11; [`Refusal::BodyNotMet`] for a head that is cut
    /// off, or more bits than an address has.
    pub fn read(body: &'a [u8], subtype: u16) -> Result<Rib<'a>, Refusal> {
        let ([sequence, bits, declared, count, entries], octets) = boundary::read_rib(body, subtype)?;
        Ok(Rib {
            sequence: sequence as u32,
            prefix: Prefix { octets, bits: bits as u8 },
            declared: declared as u16,
            count: count as u16,
            subtype,
            body,
            entries: entries as usize,
        })
    }

    /// The prefix as an address, of the family that the subtype says.
    pub const fn network(&self) -> IpAddr {
        address_of(matches!(self.subtype, 4 | 5 | 10 | 11), self.prefix.octets)
    }

    /// The entry of an index, which costs a look at all before it.
    ///
    /// # Errors
    ///
    /// [`Refusal::Beyond`] at or beyond the read count.
    pub fn entry(&self, i: usize) -> Result<Entry<'a>, Refusal> {
        boundary::rib_entry(self.body, self.subtype, i).map(|values| Entry::of(self.body, values))
    }

    /// The entries, as many as `count` says.
    pub const fn entries(&self) -> Entries<'a> {
        Entries::at(self.body, self.subtype, [self.entries as u64, self.declared as u64])
    }
}

/// One route of a RIB record.
#[derive(Debug, Clone, Copy, PartialEq, Eq, Hash, Default)]
pub struct Entry<'a> {
    /// The peer's id in the peer table. Some writers have ids beyond it.
    pub peer: u16,
    /// When the route was originated, in seconds since 1970.
    pub originated: u32,
    /// The path number of subtypes 8 to 11, else 0.
    pub path: u32,
    /// The attributes, a part of the body.
    pub attributes: &'a [u8],
}

impl<'a> Entry<'a> {
    /// The entry of an answer's values.
    pub(crate) fn of(body: &'a [u8], [peer, originated, path, start, end]: [u64; 5]) -> Entry<'a> {
        Entry {
            peer: peer as u16,
            originated: originated as u32,
            path: path as u32,
            attributes: part(body, start, end),
        }
    }

    /// Its values where its attributes are a part of a buffer: they stand at the same place in memory.
    pub(crate) fn values_in(&self, buffer: &[u8]) -> Option<[u64; 5]> {
        let start = match self.attributes {
            [] => 0,
            octets => octets.as_ptr().addr().checked_sub(buffer.as_ptr().addr())?,
        };
        let end = start.checked_add(self.attributes.len()).filter(|end| *end <= buffer.len())?;
        Some([self.peer.into(), self.originated.into(), self.path.into(), start as u64, end as u64])
    }

    /// How old the route was when its record was written, in seconds: below zero where it is later than the record.
    pub fn age(&self, timestamp: u32) -> i64 {
        boundary::age(timestamp, self.originated)
    }
}

/// The entries of a RIB body, in order. It ends at the first one that does not fit.
///
/// ```
/// use mrt::{Entries, Refusal};
///
/// // Two entries are declared, and one fits.
/// let body = [0, 0, 0, 9, 0, 0, 2, 0, 7, 0, 0, 0, 50, 0, 0, 0, 8];
/// let peers: Vec<u16> = Entries::read(&body, 2)?.map(|entry| entry.peer).collect();
/// assert_eq!(peers, [7]);
/// # Ok::<(), Refusal>(())
/// ```
#[derive(Debug, Clone)]
#[must_use]
pub struct Entries<'a> {
    body: &'a [u8],
    subtype: u16,
    /// Where the next entry starts, and how many are left. The entries that are held stand before it.
    cursor: [u64; 2],
    /// Few at a time: most records have few.
    entries: Rows<5, 8>,
}

impl<'a> Entries<'a> {
    /// The entries alone, which saves the count that [`Rib::read`] makes first.
    ///
    /// # Errors
    ///
    /// Those of [`Rib::read`].
    pub fn read(body: &'a [u8], subtype: u16) -> Result<Entries<'a>, Refusal> {
        Ok(Entries::at(body, subtype, boundary::rib_first(body, subtype)?))
    }

    /// The entries from a cursor on, of a subtype that is carried.
    const fn at(body: &'a [u8], subtype: u16, cursor: [u64; 2]) -> Entries<'a> {
        Entries { body, subtype, cursor, entries: Rows::new() }
    }
}

impl<'a> Iterator for Entries<'a> {
    type Item = Entry<'a>;

    fn next(&mut self) -> Option<Entry<'a>> {
        // None come where none is left or the next one does not fit, and the cursor stays: so at every later call.
        let ask = |rows: &mut [_]| boundary::rib_entries(self.body, self.subtype, &mut self.cursor, rows);
        self.entries.next(ask).map(|values| Entry::of(self.body, values))
    }

    fn size_hint(&self) -> (usize, Option<usize>) {
        let (held, [_, left]) = (self.entries.len(), self.cursor);
        (held, held.checked_add(left as usize))
    }
}

impl FusedIterator for Entries<'_> {}
