//! Rows that are missing between two records.

use crate::{Record, boundary};

/// The last sequence number of each kind of table, by which missing rows are counted.
///
/// The caller holds them, and they outlive a file: an agent that follows the rotated files of one daemon keeps its counters, and
/// is told what was lost between two files too.
///
/// Rows are the RIB records of type 13 (subtypes 2 to 5 and 8 to 11), which share a counter of 32 bits, and the records of type
/// 12, with one of 16 bits. A PEER_INDEX_TABLE begins a table anew: it clears both.
///
/// ```
/// use mrt::{Counters, Exhausted, Item, Walk};
///
/// // Rows 7 to 10 of a table. The prefix of row 9 has more bits than an address, so that it is a gap.
/// let mut stream = vec![];
/// for (sequence, bits) in [(7, 0), (8, 0), (9, 33), (10, 0)] {
///     stream.extend([0, 0, 0, 0, 0, 13, 0, 2, 0, 0, 0, 7]);
///     stream.extend([0, 0, 0, sequence, bits, 0, 0]);
/// }
/// let (mut counters, mut told) = (Counters::new(), vec![]);
/// for item in Walk::new(&stream) {
///     if let Item::Record(record) = item? {
///         told.push(counters.count(&record).map(|missing| missing.rows));
///     }
/// }
/// assert_eq!(told, [None, Some(0), Some(1)]);
/// # Ok::<(), Exhausted>(())
/// ```
#[derive(Debug, Clone, Copy, PartialEq, Eq, Default)]
pub struct Counters {
    /// For type 13 and then for type 12: 1 where a record was counted, and its number. Written by the library alone.
    places: [u64; 4],
}

impl Counters {
    /// Counters that have seen no record.
    pub const fn new() -> Counters {
        Counters { places: [0; 4] }
    }

    /// Counts a record: each one that a walk hands out, in order. A gap needs no call.
    ///
    /// Gives how many rows are missing since the last record of the same type, or `None` where there is none to compare with:
    /// for the first row, for the first after a PEER_INDEX_TABLE, and for every record that is no row.
    pub fn count(&mut self, record: &Record<'_>) -> Option<Missing> {
        let [told, rows, repeat] =
            boundary::missing(record.body, record.header.kind, record.header.subtype, &mut self.places);
        (told == 1).then_some(Missing { rows: rows as u32, repeat: repeat == 1 })
    }
}

/// What the sequence numbers of two records of the same type say of the rows between them.
#[derive(Debug, Clone, Copy, PartialEq, Eq, Hash)]
#[non_exhaustive]
pub struct Missing {
    /// How many rows are missing: the later number minus the earlier one, minus 1, where numbers turn over at 2^32 for type 13
    /// and at 2^16 for type 12.
    ///
    /// A number that has fallen by n therefore gives 2^32 - n - 1, or 2^16 - n - 1: nothing in a file tells a fall from a turn.
    /// A record that was torn after its head may have any number. Nearly all of those stand straight before a gap.
    pub rows: u32,
    /// Whether the later number is the earlier one again. No rows are missing then.
    pub repeat: bool,
}
