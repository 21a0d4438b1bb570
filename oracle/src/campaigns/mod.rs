//! The questions that are put: short inputs exhaustively, all sides of each boundary, random and damaged streams, and
//! real files whole and damaged.

use crate::question::Question;

pub mod bounds;
pub mod edges;
pub mod headers;
pub mod missing;
pub mod peers;
pub mod pushes;
pub mod real;
pub mod records;
pub mod ribs;
pub mod rows;
pub mod streams;
pub mod table_dumps;
pub mod tokens;

/// Windows that every kind of walk is asked with.
pub const WINDOWS: [usize; 7] = [0, 1, 2, 7, 100, 1 << 20, usize::MAX];
/// Numbers of confirmations that every kind of walk is asked with.
pub const ASKED: [u8; 5] = [0, 1, 2, 3, 255];

/// Where a campaign puts its questions.
pub type Put<'a> = &'a mut dyn FnMut(&Question);
