//! The same calls in plain Rust over the slice, as one writes them for speed: no allocation, no copy, each length tested
//! once, everything open to the optimizer.

pub mod dump;
pub mod missing;
pub mod peers;
pub mod record;
pub mod rib;
pub mod walk;
pub mod walled;

/// The number in two octets.
#[inline(always)]
fn be16(octets: &[u8], at: usize) -> u16 {
    u16::from_be_bytes([octets[at], octets[at + 1]])
}

/// The number in four octets.
#[inline(always)]
fn be32(octets: &[u8], at: usize) -> u32 {
    u32::from_be_bytes([octets[at], octets[at + 1], octets[at + 2], octets[at + 3]])
}
