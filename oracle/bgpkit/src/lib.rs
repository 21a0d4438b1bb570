//! Nine files of bgpkit-parser 0.23.0, one of them with one guard replaced, built with stand-ins for what they need.
//! `build.rs` finds them.

/// Declares one of the crate's own files as a module here.
macro_rules! own_file {
    ($name:literal) => {
        include!(concat!(env!("OUT_DIR"), "/mod_", $name, ".rs"));
    };
}

// The crate's files say `use bytes::Bytes` and so on. Each of these names is this crate itself, whose root shows the
// stand-ins.
extern crate self as bytes;
extern crate self as ipnet;
extern crate self as log;
extern crate self as num_enum;
extern crate self as regex;
extern crate self as zerocopy;

pub mod stand_ins;
pub use bgpkit_derives::{FromBytes, Immutable, IntoBytes, KnownLayout};
pub use stand_ins::bytes::{Buf, BufMut, Bytes, BytesMut};
pub use stand_ins::ipnet::{IpNet, Ipv4Net, Ipv6Net};
pub use stand_ins::num_enum::TryFromPrimitiveError;
pub use stand_ins::regex::Regex;
pub use stand_ins::zerocopy::{big_endian, FromBytes, Immutable, IntoBytes, KnownLayout};

own_file!("error");

pub mod encoder {
    own_file!("sink");
}

pub mod bmp;
pub mod body_check;
pub mod models;
pub mod parser;

pub use error::ParserError;
pub use parser::mrt::mrt_record::RawMrtRecord;
pub use parser::{bgp, utils, Filterable};
