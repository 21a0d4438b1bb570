//! Big-endian numbers in octets.

#[inline]
pub fn be16(octets: &[u8], at: usize) -> u16 {
    u16::from_be_bytes([octets[at], octets[at + 1]])
}

#[inline]
pub fn be32(octets: &[u8], at: usize) -> u32 {
    u32::from_be_bytes([octets[at], octets[at + 1], octets[at + 2], octets[at + 3]])
}

/// Puts octets into a lent output from the front. The caller has tested the room.
pub struct Pen<'a> {
    out: &'a mut [u8],
    at: usize,
}

impl<'a> Pen<'a> {
    pub fn new(out: &'a mut [u8]) -> Self {
        Pen { out, at: 0 }
    }

    pub fn put(&mut self, octets: &[u8]) {
        self.out[self.at..self.at + octets.len()].copy_from_slice(octets);
        self.at += octets.len();
    }

    pub fn written(&self) -> usize {
        self.at
    }
}
