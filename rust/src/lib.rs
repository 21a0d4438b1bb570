//! MRT dumps (RFC 6396, RFC 8050), whole or torn: a safe interface to `libmrt.a`.
//!
//! The library frames records, reads and writes peer tables, RIB bodies and TABLE_DUMP bodies with their attributes opaque, and
//! walks a damaged stream so that every octet is accounted for, once, as part of a record or of a gap. Each of its calls is
//! proved safe, ending, and equal to a short definition, for every input. This crate is the thin layer that gives them Rust's
//! types; it is tested, not proved.
//!
//! ```
//! use mrt::{Item, Walk};
//!
//! // Twelve octets that are no record, then three state changes.
//! let mut stream = vec![0xff; 12];
//! for _ in 0..3 {
//!     stream.extend([0, 0, 0, 0, 0, 16, 0, 0, 0, 0, 0, 20]);
//!     stream.extend([0, 1, 0, 2, 0, 0, 0, 1, 192, 0, 2, 1, 192, 0, 2, 2, 0, 5, 0, 6]);
//! }
//! let mut records = 0;
//! for item in Walk::new(&stream) {
//!     match item? {
//!         Item::Record(record) => records += 1,
//!         Item::Gap(gap) => assert_eq!(gap.to_string(), "0 to 12: the type is unknown; ends at a state change, 3 confirmed"),
//!     }
//! }
//! assert_eq!(records, 3);
//! # Ok::<(), mrt::Exhausted>(())
//! ```
//!
//! # Where to start
//!
//! - [`Walk`] goes through a stream: [`Record`]s and [`Gap`]s, each once and in order.
//! - [`Record::peer_index`] and [`PeerTable`]: who the peers are. [`Record::rib`] and [`Entries`]: their routes.
//! - [`Record::table_dump`]: a route and its peer, in the older TABLE_DUMP.
//! - [`Counters`]: how many rows of a table are missing between its records, by their sequence numbers.
//! - [`NewHeader`], [`PeerTable::write`], [`RibBuilder`] and [`NewTableDump`] write; [`RibBuilder::extend_from`] writes many
//!   routes at a time.
//! - [`Header`], [`Frame`], [`check_body`] and [`Candidate`] are the parts that a walk is made of.
//!
//! # Refusals
//!
//! Every input is accepted. A call that is not served gives a [`Refusal`] and leaves what it was lent as it was.
//!
//! # No allocation, no panic
//!
//! Everything borrows the stream, or works in slots and output that the caller lends. No `std`, no dependency.
//!
//! No panic can be reached. An `expect` could stand where an answer's offsets cut a part out of the stream, since the library
//! is proved to answer offsets inside it. The crate takes an empty part there instead: that arm is never run, and no panic is
//! left in the program for it. Lints, and a look at what the compiled crate asks for, keep it so.
#![no_std]
#![warn(missing_docs)]
#![deny(unsafe_code)]
#![deny(clippy::arithmetic_side_effects, clippy::indexing_slicing, clippy::undocumented_unsafe_blocks)]
#![deny(clippy::expect_used, clippy::panic, clippy::unwrap_used)]

#[allow(unsafe_code)]
mod boundary;
mod check;
mod header;
mod missing;
mod peers;
mod refusal;
mod rib;
mod rib_write;
mod rows;
mod table_dump;
mod walk;

pub use check::{Candidate, Evidence, check_body};
pub use header::{Frame, Header, NewHeader, Record, StoredLength, WireLength};
pub use missing::{Counters, Missing};
pub use peers::{Added, Peer, PeerIndex, PeerTable};
pub use refusal::Refusal;
pub use rib::{Entries, Entry, Prefix, Rib};
pub use rib_write::{RibBuilder, add_entry};
pub use table_dump::{NewTableDump, TableDump};
pub use walk::{Exhausted, Gap, Item, Options, Walk};

/// The examples of the README, run as tests.
#[cfg(doctest)]
#[doc = include_str!("../README.md")]
struct Readme;

/// A part of what was lent, by an answer's offsets. They lie inside it, so the part is never the empty one for want of that.
fn part(octets: &[u8], start: u64, end: u64) -> &[u8] {
    octets.get(start as usize..end as usize).unwrap_or_default()
}
