//! For the crate `bytes`: shared octets read from the front, and a buffer that grows.

use std::ops::{Deref, DerefMut};
use std::sync::Arc;

/// A part of shared octets. A clone shares them.
#[derive(Debug, Clone)]
pub struct Bytes {
    octets: Arc<Vec<u8>>,
    start: usize,
    end: usize,
}

impl Bytes {
    pub fn copy_from_slice(octets: &[u8]) -> Self {
        Bytes::from(octets.to_vec())
    }

    /// Takes the first `count` octets off.
    pub fn split_to(&mut self, count: usize) -> Bytes {
        assert!(count <= self.len(), "split beyond the end");
        let mut front = self.clone();
        front.end = front.start + count;
        self.start = front.end;
        front
    }
}

impl From<Vec<u8>> for Bytes {
    fn from(octets: Vec<u8>) -> Self {
        let end = octets.len();
        Bytes { octets: Arc::new(octets), start: 0, end }
    }
}

impl From<Bytes> for Vec<u8> {
    fn from(bytes: Bytes) -> Self {
        bytes.to_vec()
    }
}

impl Deref for Bytes {
    type Target = [u8];

    fn deref(&self) -> &[u8] {
        &self.octets[self.start..self.end]
    }
}

impl AsRef<[u8]> for Bytes {
    fn as_ref(&self) -> &[u8] {
        self
    }
}

impl IntoIterator for Bytes {
    type Item = u8;
    type IntoIter = std::vec::IntoIter<u8>;

    fn into_iter(self) -> Self::IntoIter {
        Vec::from(self).into_iter()
    }
}

/// Reading from the front. As in the original, reading past the end panics.
pub trait Buf {
    fn remaining(&self) -> usize;
    fn chunk(&self) -> &[u8];
    fn advance(&mut self, count: usize);

    fn copy_to_slice(&mut self, out: &mut [u8]) {
        out.copy_from_slice(&self.chunk()[..out.len()]);
        self.advance(out.len());
    }

    fn copy_to_bytes(&mut self, count: usize) -> Bytes {
        let part = Bytes::copy_from_slice(&self.chunk()[..count]);
        self.advance(count);
        part
    }

    fn get_array<const N: usize>(&mut self) -> [u8; N] {
        let mut octets = [0; N];
        self.copy_to_slice(&mut octets);
        octets
    }

    fn get_u8(&mut self) -> u8 {
        u8::from_be_bytes(self.get_array())
    }

    fn get_u16(&mut self) -> u16 {
        u16::from_be_bytes(self.get_array())
    }

    fn get_u32(&mut self) -> u32 {
        u32::from_be_bytes(self.get_array())
    }

    fn get_u64(&mut self) -> u64 {
        u64::from_be_bytes(self.get_array())
    }

    fn get_u128(&mut self) -> u128 {
        u128::from_be_bytes(self.get_array())
    }
}

impl Buf for Bytes {
    fn remaining(&self) -> usize {
        self.len()
    }

    fn chunk(&self) -> &[u8] {
        self
    }

    fn advance(&mut self, count: usize) {
        assert!(count <= self.len(), "advance beyond the end");
        self.start += count;
    }
}

/// Writing at the end.
pub trait BufMut {
    fn put_slice(&mut self, octets: &[u8]);

    fn put_u8(&mut self, value: u8) {
        self.put_slice(&value.to_be_bytes());
    }

    fn put_u16(&mut self, value: u16) {
        self.put_slice(&value.to_be_bytes());
    }

    fn put_u32(&mut self, value: u32) {
        self.put_slice(&value.to_be_bytes());
    }
}

#[derive(Debug, Default)]
pub struct BytesMut(Vec<u8>);

impl BytesMut {
    pub fn new() -> Self {
        Self::default()
    }

    pub fn with_capacity(count: usize) -> Self {
        BytesMut(Vec::with_capacity(count))
    }

    pub fn freeze(self) -> Bytes {
        Bytes::from(self.0)
    }
}

impl BufMut for BytesMut {
    fn put_slice(&mut self, octets: &[u8]) {
        self.0.extend_from_slice(octets);
    }
}

impl Extend<u8> for BytesMut {
    fn extend<I: IntoIterator<Item = u8>>(&mut self, octets: I) {
        self.0.extend(octets);
    }
}

impl Deref for BytesMut {
    type Target = [u8];

    fn deref(&self) -> &[u8] {
        &self.0
    }
}

impl DerefMut for BytesMut {
    fn deref_mut(&mut self) -> &mut [u8] {
        &mut self.0
    }
}
