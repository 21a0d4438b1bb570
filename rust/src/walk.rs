//! The recovering walk.

use crate::rows::Rows;
use crate::{Evidence, Record, Refusal, boundary};
use core::error::Error;
use core::fmt;
use core::iter::FusedIterator;

/// How far a walk scans after damage, and what it asks before it goes on.
///
/// ```
/// use mrt::Options;
///
/// let options = Options::new().window(65_536).confirmations(5);
/// assert_eq!(Options::default(), Options::new().window(1_048_576).confirmations(3));
/// # assert_ne!(options, Options::default());
/// ```
#[derive(Debug, Clone, Copy, PartialEq, Eq, Hash)]
#[must_use]
pub struct Options {
    window: usize,
    confirmations: u8,
}

impl Options {
    /// A window of 1,048,576 octets and 3 confirmations.
    pub const fn new() -> Options {
        Options { window: 1_048_576, confirmations: 3 }
    }

    /// At most so many distances are looked at after a refused record.
    pub const fn window(self, window: usize) -> Options {
        Options { window, ..self }
    }

    /// So many records in a row are asked for before the walk goes on. 0 counts as 1.
    pub const fn confirmations(self, confirmations: u8) -> Options {
        Options { confirmations, ..self }
    }
}

impl Default for Options {
    fn default() -> Options {
        Options::new()
    }
}

/// What a walk answers, in the order of the stream.
#[derive(Debug, Clone, Copy, PartialEq, Eq, Hash)]
pub enum Item<'a> {
    /// A record that passes all checks.
    Record(Record<'a>),
    /// Octets that are part of no record.
    Gap(Gap),
}

/// Octets that are part of no record, and why the walk goes on after them.
#[derive(Debug, Clone, Copy, PartialEq, Eq, Hash)]
#[non_exhaustive]
pub struct Gap {
    /// Where it starts.
    pub start: usize,
    /// Where it ends.
    pub end: usize,
    /// Why no record was taken at its start.
    pub refusal: Refusal,
    /// Why the walk goes on at its end.
    pub evidence: Evidence,
    /// How many records are known to follow it.
    pub confirmed: u8,
}

impl fmt::Display for Gap {
    fn fmt(&self, f: &mut fmt::Formatter<'_>) -> fmt::Result {
        let Gap { start, end, refusal, evidence, confirmed } = self;
        write!(f, "{start} to {end}: {refusal}; ends at {evidence}, {confirmed} confirmed")
    }
}

/// A scan found no record to go on from within its window: refusal 11. The walk has ended in its place.
#[derive(Debug, Clone, Copy, PartialEq, Eq, Hash)]
#[non_exhaustive]
pub struct Exhausted {
    /// Where the scan started. What follows is not accounted for.
    pub start: usize,
    /// The window.
    pub window: usize,
    /// Why no record was taken at the start.
    pub refusal: Refusal,
}

impl fmt::Display for Exhausted {
    fn fmt(&self, f: &mut fmt::Formatter<'_>) -> fmt::Result {
        let Exhausted { start, window, refusal } = self;
        write!(f, "at {start} {refusal}, and no record to go on from was found within {window} octets")
    }
}

impl Error for Exhausted {}

impl From<Exhausted> for Refusal {
    fn from(_: Exhausted) -> Refusal {
        Refusal::WindowExhausted
    }
}

/// A walk over a stream: an iterator over its records and gaps.
///
/// A fresh walk covers the stream: the first item starts at 0, each starts where the one before ended, none is empty, and the
/// last one ends where the stream does, unless it is the error [`Exhausted`]. Two gaps never touch. A gap that reports k
/// confirmed records is followed by k records, or by the end where k is 0. All of this is proved of the library.
///
/// A scan after damage takes up a [`Candidate`](crate::Candidate) alone: it passes over records of types 5, 12 and 13.
///
/// ```
/// use mrt::{Evidence, Item, Options, Refusal, Walk};
///
/// let stream = [0; 6];
/// let mut walk = Walk::with_options(&stream, Options::new().window(1));
/// let Some(Ok(Item::Gap(gap))) = walk.next() else { panic!("six zeros are no record") };
/// assert_eq!((gap.start, gap.end, gap.confirmed), (0, 6, 0));
/// assert_eq!((gap.refusal, gap.evidence), (Refusal::TruncatedHeader, Evidence::StreamEnd));
/// assert_eq!(walk.next(), None);
/// ```
#[derive(Debug, Clone)]
#[must_use]
pub struct Walk<'a> {
    stream: &'a [u8],
    options: Options,
    /// The position, and 1 where the walk is finished. Within the stream, always. The records that are held stand before it.
    place: [u64; 2],
    records: Rows<10, 16>,
    /// Where the next item starts.
    position: usize,
}

impl<'a> Walk<'a> {
    /// A fresh walk with the default options.
    pub const fn new(stream: &'a [u8]) -> Walk<'a> {
        Walk::with_options(stream, Options::new())
    }

    /// A fresh walk.
    pub const fn with_options(stream: &'a [u8], options: Options) -> Walk<'a> {
        Walk { stream, options, place: [0, 0], records: Rows::new(), position: 0 }
    }

    /// A walk from an offset on: to go on where another one stopped, with a wider window say.
    ///
    /// # Errors
    ///
    /// [`Refusal::Beyond`] for an offset beyond the stream.
    ///
    /// ```
    /// use mrt::{Options, Refusal, Walk};
    ///
    /// let mut walk = Walk::with_options(&[0; 7], Options::new().window(1));
    /// let exhausted = walk.next().unwrap().unwrap_err();
    /// assert_eq!(walk.next(), None);
    ///
    /// let mut wider = Walk::starting_at(&[0; 7], exhausted.start, Options::new().window(2))?;
    /// assert!(wider.next().unwrap().is_ok());
    /// # Ok::<(), Refusal>(())
    /// ```
    pub const fn starting_at(stream: &'a [u8], at: usize, options: Options) -> Result<Walk<'a>, Refusal> {
        if stream.len() < at {
            return Err(Refusal::Beyond);
        }
        Ok(Walk { stream, options, place: [at as u64, 0], records: Rows::new(), position: at })
    }

    /// Where the next item starts: how far the walk has come.
    pub const fn position(&self) -> usize {
        self.position
    }

    /// Whether the end, or an exhausted window, has been answered.
    pub const fn is_finished(&self) -> bool {
        let [_, finished] = self.place;
        finished == 1
    }
}

impl<'a> Iterator for Walk<'a> {
    type Item = Result<Item<'a>, Exhausted>;

    fn next(&mut self) -> Option<Self::Item> {
        if let Some([_, start, record @ ..]) =
            self.records.next(|rows| boundary::records(self.stream, &mut self.place, rows))
        {
            let [.., end] = record;
            self.position = end as usize;
            return Some(Ok(Item::Record(Record::of(self.stream, start, record))));
        }
        let item = self.step();
        let [position, _] = self.place;
        self.position = position as usize;
        item
    }
}

impl<'a> Walk<'a> {
    /// One answer of the walk's own call.
    fn step(&mut self) -> Option<Result<Item<'a>, Exhausted>> {
        let Options { window, confirmations } = self.options;
        match boundary::next(self.stream, &mut self.place, window, confirmations) {
            [1, start, record @ ..] => Some(Ok(Item::Record(Record::of(self.stream, start, record)))),
            [2, start, end, refusal, evidence, confirmed, ..] => Some(Ok(Item::Gap(Gap {
                start: start as usize,
                end: end as usize,
                refusal: reason(refusal),
                evidence: Evidence::of(evidence),
                confirmed: confirmed as u8,
            }))),
            [4, start, window, refusal, ..] => {
                Some(Err(Exhausted { start: start as usize, window: window as usize, refusal: reason(refusal) }))
            }
            // 3, the end, on every later call too. A refusal leaves a 0, but a walk within its stream has none.
            _ => None,
        }
    }
}

impl FusedIterator for Walk<'_> {}

/// The refusal of a record at which a walk stopped. There is one, so the number is not 0.
fn reason(number: u64) -> Refusal {
    Refusal::judge(number as u32).err().unwrap_or(Refusal::WindowExhausted)
}
