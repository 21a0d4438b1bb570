//! Document 01, and what 02 changes in it, read in plain Rust over slices. Nothing here is taken from the crate, and
//! nothing allocates.

mod check;
mod header;
mod missing;
mod octets;
mod peers;
mod rib;
mod table_dump;
mod walk;

pub use check::body_check;
pub use header::{body, frame, read_header, write_header};
pub use missing::count_missing;
pub use peers::{add_peer, find_peer, read_peer, read_peers, write_peers};
pub use rib::{add_entry, begin_rib, next_entry, push_entry, push_rows, read_entry, read_rib};
pub use table_dump::{read_table_dump, write_table_dump};
pub use walk::{aligned, candidate, judge, scan, step};
