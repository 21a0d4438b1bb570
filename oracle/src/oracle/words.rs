//! The crate says why in words. These are 01's numbers for them.

use bgpkit_part::body_check::{NOT_CARRIED, NOT_MET};

/// The crate's limit of 16 MiB on a body, which has no number in 01.
pub const TOO_LARGE: u8 = 100;
/// Words that are none of those below.
pub const UNKNOWN_WORDS: u8 = 255;

const WORDS: [(&str, u8); 10] = [
    ("reach end of file", 1),
    ("failed to fill whole buffer", 1),
    ("cannot parse entry type", 2),
    ("invalid MRT header length for ET record", 3),
    ("truncated MRT body", 4),
    ("unsupported MRT type", 5),
    (NOT_CARRIED, 6),
    ("wrong RIB type for parsing", 6),
    (NOT_MET, 7),
    ("MRT message too large", TOO_LARGE),
];

pub fn number(cause: &str) -> u8 {
    WORDS.iter().find(|(words, _)| cause.contains(words)).map_or(UNKNOWN_WORDS, |&(_, number)| number)
}
