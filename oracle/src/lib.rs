//! Document 01 read in plain Rust, the crate bgpkit-parser 0.23.0 asked the same questions, and what is needed to
//! compare the two.

pub mod answers;
pub mod asked;
pub mod campaigns;
pub mod compare;
pub mod damage;
#[cfg(proved)]
pub mod exports;
pub mod known;
pub mod listing;
pub mod make;
pub mod oracle;
#[cfg(proved)]
pub mod proved;
pub mod question;
pub mod random;
pub mod reading;
pub mod rules;
pub mod sample;
pub mod subject;
pub mod tears;
pub mod text;
pub mod untimed;
