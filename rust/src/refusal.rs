//! Why a call was not served.

use core::error::Error;
use core::fmt;

/// Why a call was not served. Each call says which of these it gives, in the order in which they are tried.
///
/// A refused call leaves everything that it was lent as it was.
///
/// ```
/// use mrt::{Header, Refusal};
///
/// let refusal = Header::read(&[0; 11], 0).unwrap_err();
/// assert_eq!(refusal, Refusal::TruncatedHeader);
/// assert_eq!(refusal.number(), 1);
/// assert_eq!(refusal.to_string(), "the header runs past the stream");
/// ```
#[derive(Debug, Clone, Copy, PartialEq, Eq, PartialOrd, Ord, Hash)]
#[repr(u8)]
pub enum Refusal {
    /// 1: under 12 octets are left, or under 16 for types 17, 33 and 49, which have microseconds.
    TruncatedHeader = 1,
    /// 2: the type is not one of 0 to 13, 16, 17, 32, 33, 48, 49.
    UnknownType = 2,
    /// 3: type 17, 33 or 49, whose wire length counts four octets of microseconds, with a wire length under 4.
    ShortLength = 3,
    /// 4: the body runs past the stream.
    TruncatedBody = 4,
    /// 5: a known type that is not 5, 12, 13, 16 or 17.
    NotCarried = 5,
    /// 6: the subtype is not carried.
    OtherSubtype = 6,
    /// 7: the body does not meet the check of its type and subtype.
    BodyNotMet = 7,
    /// 8: an index, offset, count or length beyond what exists, or an address that is not held.
    Beyond = 8,
    /// 9: too few slots, or too little room for output.
    NoRoom = 9,
    /// 10: a value does not fit its field.
    TooLarge = 10,
    /// 11: no record to go on from stands within the window of a scan.
    WindowExhausted = 11,
}

impl Refusal {
    /// The number that the library and its listings have for it, 1 to 11.
    pub const fn number(self) -> u8 {
        self as u8
    }

    /// What a number that the library answers stands for: 0 is no refusal. The library is proved to answer none above 11, so
    /// the last arm is 11 alone.
    pub(crate) const fn judge(number: u32) -> Result<(), Refusal> {
        Err(match number {
            0 => return Ok(()),
            1 => Refusal::TruncatedHeader,
            2 => Refusal::UnknownType,
            3 => Refusal::ShortLength,
            4 => Refusal::TruncatedBody,
            5 => Refusal::NotCarried,
            6 => Refusal::OtherSubtype,
            7 => Refusal::BodyNotMet,
            8 => Refusal::Beyond,
            9 => Refusal::NoRoom,
            10 => Refusal::TooLarge,
            _ => Refusal::WindowExhausted,
        })
    }
}

impl fmt::Display for Refusal {
    fn fmt(&self, f: &mut fmt::Formatter<'_>) -> fmt::Result {
        f.write_str(match self {
            Refusal::TruncatedHeader => "the header runs past the stream",
            Refusal::UnknownType => "the type is unknown",
            Refusal::ShortLength => "the length leaves no room for the microseconds",
            Refusal::TruncatedBody => "the body runs past the stream",
            Refusal::NotCarried => "the type is not carried",
            Refusal::OtherSubtype => "the subtype is not carried",
            Refusal::BodyNotMet => "the body does not meet its check",
            Refusal::Beyond => "an index, offset, count or length is beyond what exists, or an address is not held",
            Refusal::NoRoom => "there are too few slots or there is too little room",
            Refusal::TooLarge => "a value does not fit its field",
            Refusal::WindowExhausted => "the scan's window is exhausted",
        })
    }
}

impl Error for Refusal {}
