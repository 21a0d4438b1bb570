//! The works, each set out for the three sides.

pub mod dumps;
pub mod missing;
pub mod peers;
pub mod ribs;
pub mod walks;
