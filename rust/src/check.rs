//! The body check, and the test that a scan puts to each offset.

use crate::{Refusal, StoredLength, boundary};
use core::fmt;

/// Checks a body by the type, subtype and stored length of its record. Of type 5 the octets are not looked at.
///
/// # Errors
///
/// [`Refusal::UnknownType`], [`Refusal::NotCarried`], [`Refusal::OtherSubtype`], [`Refusal::BodyNotMet`].
///
/// ```
/// use mrt::{Refusal, StoredLength, check_body};
///
/// assert_eq!(check_body(&[0; 8], 13, 1, StoredLength(8)), Ok(()));
/// assert_eq!(check_body(&[0; 7], 13, 1, StoredLength(7)), Err(Refusal::BodyNotMet));
/// assert_eq!(check_body(&[0; 8], 11, 1, StoredLength(8)), Err(Refusal::NotCarried));
/// assert_eq!(check_body(&[0; 8], 14, 1, StoredLength(8)), Err(Refusal::UnknownType));
/// ```
pub fn check_body(body: &[u8], kind: u16, subtype: u16, stored: StoredLength) -> Result<(), Refusal> {
    boundary::check_body(body, kind, subtype, stored.0)
}

/// Why the octets after a gap are taken for records.
///
/// The number 1 is reserved and never given: it stood for a chain of candidates that starts with a type 5 record, and
/// no scan takes one up any more.
#[derive(Debug, Clone, Copy, PartialEq, Eq, PartialOrd, Ord, Hash)]
#[repr(u8)]
pub enum Evidence {
    /// 2: a chain of candidates starts with a BGP message behind its marker.
    Marker = 2,
    /// 3: a chain of candidates starts with a state change.
    StateChange = 3,
    /// 4: the refused record is framed, and records of any carried kind, or the stream's end, follow it.
    OwnEnd = 4,
    /// 5: nothing does. The gap runs to the stream's end.
    StreamEnd = 5,
}

impl Evidence {
    /// The number that the library and its listings have for it, 2 to 5.
    pub const fn number(self) -> u8 {
        self as u8
    }

    /// What a number that the library answers stands for. It answers 2 to 5, so the last arm is 5 alone.
    pub(crate) const fn of(number: u64) -> Evidence {
        match number {
            2 => Evidence::Marker,
            3 => Evidence::StateChange,
            4 => Evidence::OwnEnd,
            _ => Evidence::StreamEnd,
        }
    }
}

impl fmt::Display for Evidence {
    fn fmt(&self, f: &mut fmt::Formatter<'_>) -> fmt::Result {
        f.write_str(match self {
            Evidence::Marker => "a BGP marker",
            Evidence::StateChange => "a state change",
            Evidence::OwnEnd => "the refused record's own end",
            Evidence::StreamEnd => "the stream's end",
        })
    }
}

/// A record that a scan may take up: of type 16 or 17, with all checks passed and microseconds below 1,000,000.
#[derive(Debug, Clone, Copy, PartialEq, Eq, Hash)]
#[non_exhaustive]
pub struct Candidate {
    /// Its evidence: a marker or a state change.
    pub evidence: Evidence,
    /// Where the record ends.
    pub end: usize,
}

impl Candidate {
    /// The candidate at an offset, or `None` where a scan may not take up.
    ///
    /// # Errors
    ///
    /// [`Refusal::Beyond`] for an offset beyond the stream.
    ///
    /// ```
    /// use mrt::{Candidate, Evidence, Record, Refusal};
    ///
    /// // A state change between IPv4 addresses.
    /// let mut stream = [0; 32];
    /// stream[4..12].copy_from_slice(&[0, 16, 0, 0, 0, 0, 0, 20]);
    /// stream[19] = 1;
    /// let candidate = Candidate::read(&stream, 0)?.unwrap();
    /// assert_eq!((candidate.evidence, candidate.end), (Evidence::StateChange, 32));
    /// assert_eq!(Candidate::read(&stream, 1), Ok(None));
    /// assert_eq!(Candidate::read(&stream, 33), Err(Refusal::Beyond));
    ///
    /// // A record of type 5 passes its check, and no scan takes it up.
    /// let mut old = [0; 24];
    /// old[4..12].copy_from_slice(&[0, 5, 0, 7, 0, 0, 0, 12]);
    /// assert!(Record::read(&old, 0).is_ok());
    /// assert_eq!(Candidate::read(&old, 0), Ok(None));
    /// # Ok::<(), Refusal>(())
    /// ```
    pub fn read(stream: &[u8], at: usize) -> Result<Option<Candidate>, Refusal> {
        let [stands, evidence, end] = boundary::candidate(stream, at)?;
        Ok((stands == 1).then_some(Candidate { evidence: Evidence::of(evidence), end: end as usize }))
    }
}
