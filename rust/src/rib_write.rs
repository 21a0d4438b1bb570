//! RIB bodies, written into lent output.

use crate::{Entry, Prefix, Refusal, boundary};

/// A RIB body that is being written. Each entry goes straight after the last one, and the count is raised.
///
/// ```
/// use mrt::{Entry, NewHeader, Prefix, Record, Refusal, RibBuilder, StoredLength};
///
/// let mut out = [0; 64];
/// let (head, room) = out.split_at_mut(12);
/// let mut octets = [0; 16];
/// octets[..3].copy_from_slice(&[198, 51, 100]);
/// let mut builder = RibBuilder::begin(room, 2, 9, &Prefix { octets, bits: 24 })?;
/// builder.push(&Entry { peer: 0, originated: 50, path: 0, attributes: &[1, 2, 3] })?;
/// builder.push(&Entry { peer: 1, originated: 51, path: 0, attributes: &[] })?;
/// let length = builder.finish().len();
///
/// NewHeader { timestamp: 60, kind: 13, subtype: 2, stored: StoredLength(length as u32), micros: 0 }.write(head)?;
/// let rib = Record::read(&out, 0)?.rib().unwrap();
/// assert_eq!((rib.sequence, rib.count), (9, 2));
/// # Ok::<(), Refusal>(())
/// ```
#[derive(Debug)]
pub struct RibBuilder<'a> {
    out: &'a mut [u8],
    subtype: u16,
    /// How long the body is, where its count stands, the count.
    state: [u64; 3],
}

impl<'a> RibBuilder<'a> {
    /// Writes a body with no entry at the front of the output. Bits after the prefix are cleared.
    ///
    /// # Errors
    ///
    /// [`Refusal::OtherSubtype`]; [`Refusal::TooLarge`] for more bits than an address has; [`Refusal::NoRoom`].
    pub fn begin(out: &'a mut [u8], subtype: u16, sequence: u32, prefix: &Prefix) -> Result<RibBuilder<'a>, Refusal> {
        let len = boundary::begin_rib(out, subtype, sequence, prefix.bits, &prefix.octets)?;
        RibBuilder::open(out, len, subtype)
    }

    /// Takes up a body that fills the first `len` octets of the output, to add to it.
    ///
    /// # Errors
    ///
    /// [`Refusal::Beyond`] for a length beyond the output; [`Refusal::OtherSubtype`]; [`Refusal::BodyNotMet`] for a head that
    /// cannot be read, an entry that is missing, or octets that are left over.
    pub fn open(out: &'a mut [u8], len: usize, subtype: u16) -> Result<RibBuilder<'a>, Refusal> {
        let body = out.get(..len).ok_or(Refusal::Beyond)?;
        let state = boundary::open_rib(body, subtype)?;
        Ok(RibBuilder { out, subtype, state })
    }

    /// Writes one more entry. The entries before it are not looked at. For many whose attributes are parts of one buffer,
    /// [`RibBuilder::extend_from`] is faster.
    ///
    /// # Errors
    ///
    /// [`Refusal::TooLarge`] for a 65,536th entry, attributes above 65,535 octets, or a path number where the subtype has none;
    /// [`Refusal::NoRoom`].
    pub fn push(&mut self, entry: &Entry<'_>) -> Result<(), Refusal> {
        boundary::push_entry(self.out, self.subtype, &mut self.state, entry)
    }

    /// Writes entries, one after another, up to the first that is refused.
    ///
    /// Those whose attributes are parts of `buffer` are written many at a time, which from a handful of them on is faster than
    /// [`push`] for each: give a record's body for the entries that were read from it, or a pool that holds the attributes of
    /// all. Any other is pushed by itself, a little slower than by [`push`] alone, so that `buffer` decides nothing but the
    /// time. Which it is, is told by where the attributes stand in memory, not by their octets.
    ///
    /// # Errors
    ///
    /// Those of [`push`], for the first entry that does not go in. [`count`] says how many have. Of an iterator that is lent,
    /// up to fifteen entries after that one may be taken.
    ///
    /// ```
    /// use mrt::{Refusal, Rib, RibBuilder};
    ///
    /// // Two routes of 198.51.100.0/24, of which the one of peer 7 is left out.
    /// let body = [
    ///     0, 0, 0, 9, 24, 198, 51, 100, 0, 2, // the head
    ///     0, 7, 0, 0, 0, 50, 0, 1, 1, // peer 7, with one octet of attributes
    ///     0, 8, 0, 0, 0, 60, 0, 2, 3, 4, // peer 8, with two
    /// ];
    /// let rib = Rib::read(&body, 2)?;
    /// let mut out = [0; 64];
    /// let mut builder = RibBuilder::begin(&mut out, rib.subtype, rib.sequence, &rib.prefix)?;
    /// builder.extend_from(&body, rib.entries().filter(|entry| entry.peer != 7))?;
    /// assert_eq!(builder.body(), [0, 0, 0, 9, 24, 198, 51, 100, 0, 1, 0, 8, 0, 0, 0, 60, 0, 2, 3, 4]);
    /// # Ok::<(), Refusal>(())
    /// ```
    ///
    /// [`push`]: RibBuilder::push
    /// [`count`]: RibBuilder::count
    pub fn extend_from<'e>(
        &mut self,
        buffer: &[u8],
        entries: impl IntoIterator<Item = Entry<'e>>,
    ) -> Result<(), Refusal> {
        let (mut entries, mut rows) = (entries.into_iter(), [[0; 5]; MOST]);
        loop {
            let (held, other) = next_rows(&mut entries, buffer, &mut rows);
            self.push_rows(buffer, rows.get(..held).unwrap_or_default())?;
            match other {
                Some(entry) => self.push(&entry)?,
                None if held < MOST => return Ok(()),
                None => {}
            }
        }
    }

    /// Writes rows. The first that does not go in is pushed by itself, which says why; none after it is.
    fn push_rows(&mut self, buffer: &[u8], rows: &[[u64; 5]]) -> Result<(), Refusal> {
        // No call for nothing: between entries that are no part of the buffer it would cost half a push.
        if rows.is_empty() {
            return Ok(());
        }
        let pushed = boundary::push_entries(self.out, self.subtype, &mut self.state, rows, buffer);
        let left = rows.get(pushed..).unwrap_or_default();
        left.iter().try_for_each(|row| self.push(&Entry::of(buffer, *row)))
    }

    /// How many entries the body has.
    pub const fn count(&self) -> u16 {
        let [_, _, count] = self.state;
        count as u16
    }

    /// The body so far.
    pub fn body(&self) -> &[u8] {
        crate::part(self.out, 0, self.len())
    }

    /// The body, and an end of the builder.
    pub fn finish(self) -> &'a mut [u8] {
        let len = self.len() as usize;
        self.out.get_mut(..len).unwrap_or_default()
    }

    const fn len(&self) -> u64 {
        let [len, _, _] = self.state;
        len
    }
}

/// How many entries are written by one call. Not more: most bodies have few, and the rows are cleared first.
const MOST: usize = 16;

/// The next entries as rows, and how many: up to the places that there are, or up to one whose attributes are no part of the
/// buffer, which is handed back.
fn next_rows<'e>(
    entries: &mut impl Iterator<Item = Entry<'e>>,
    buffer: &[u8],
    rows: &mut [[u64; 5]; MOST],
) -> (usize, Option<Entry<'e>>) {
    let mut held = 0usize;
    for (place, entry) in rows.iter_mut().zip(entries) {
        match entry.values_in(buffer) {
            Some(values) => *place = values,
            None => return (held, Some(entry)),
        }
        held = held.saturating_add(1);
    }
    (held, None)
}

/// Writes one more entry into a body that fills the first `len` octets of the output, and says how long it is then. The whole
/// body is read first; a [`RibBuilder`] does that once.
///
/// # Errors
///
/// Those of [`RibBuilder::open`], then those of [`RibBuilder::push`].
///
/// ```
/// use mrt::{Entry, Refusal, add_entry};
///
/// let mut out = [0; 15];
/// assert_eq!(add_entry(&mut out, 7, 2, &Entry::default()), Ok(15));
/// assert_eq!(add_entry(&mut out, 15, 2, &Entry::default()), Err(Refusal::NoRoom));
/// assert_eq!(add_entry(&mut out, 16, 2, &Entry::default()), Err(Refusal::Beyond));
/// ```
pub fn add_entry(out: &mut [u8], len: usize, subtype: u16, entry: &Entry<'_>) -> Result<usize, Refusal> {
    boundary::add_entry(out, len, subtype, entry)
}
