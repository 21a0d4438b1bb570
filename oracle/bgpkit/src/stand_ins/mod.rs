//! Small stand-ins for the outside crates that the crate's files name. Only what those files use is here.

pub mod bytes;
pub mod ipnet;
pub mod log;
pub mod num_enum;
pub mod regex;
pub mod zerocopy;
