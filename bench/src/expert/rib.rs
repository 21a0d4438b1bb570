//! RIB bodies, read by a cursor and built entry by entry.

use super::{be16, be32};
use mrt_oracle::answers::{NewEntry, RibEntry};

/// What a subtype decides: the most prefix bits, and the octets of an entry before its attributes.
#[derive(Clone, Copy)]
pub struct Layout {
    most: u8,
    fixed: usize,
}

#[inline(always)]
pub fn layout(subtype: u16) -> Option<Layout> {
    match subtype {
        2 | 3 => Some(Layout { most: 32, fixed: 8 }),
        4 | 5 => Some(Layout { most: 128, fixed: 8 }),
        8 | 9 => Some(Layout { most: 32, fixed: 12 }),
        10 | 11 => Some(Layout { most: 128, fixed: 12 }),
        _ => None,
    }
}

/// How many entries are declared, and where the first one starts.
#[inline(always)]
pub fn head(layout: Layout, body: &[u8]) -> Option<(u16, usize)> {
    let bits = *body.get(4)?;
    let first = 7 + usize::from(bits).div_ceil(8);
    if bits > layout.most || body.len() < first {
        return None;
    }
    Some((be16(body, first - 2), first))
}

/// The entries of a body, up to the first that does not fit.
pub struct Entries<'a> {
    layout: Layout,
    body: &'a [u8],
    at: usize,
    left: u16,
}

impl<'a> Entries<'a> {
    pub fn new(subtype: u16, body: &'a [u8]) -> Option<Self> {
        let layout = layout(subtype)?;
        let (left, at) = head(layout, body)?;
        Some(Entries { layout, body, at, left })
    }

    /// From a cursor on.
    #[inline(always)]
    pub fn at(subtype: u16, body: &'a [u8], at: usize, left: u16) -> Option<Self> {
        Some(Entries { layout: layout(subtype)?, body, at, left })
    }

    pub fn cursor(&self) -> [u64; 2] {
        [self.at as u64, u64::from(self.left)]
    }
}

impl Iterator for Entries<'_> {
    type Item = RibEntry;

    #[inline(always)]
    fn next(&mut self) -> Option<RibEntry> {
        if self.left == 0 {
            return None;
        }
        let fixed = self.layout.fixed;
        let rest = self.body.get(self.at..)?;
        let octets = rest.get(..fixed)?;
        let length = usize::from(be16(octets, fixed - 2));
        if rest.len() - fixed < length {
            return None;
        }
        let start = self.at + fixed;
        (self.at, self.left) = (start + length, self.left - 1);
        Some(RibEntry {
            peer_index: be16(octets, 0),
            originated: be32(octets, 2),
            path: if fixed == 12 { be32(octets, 6) } else { 0 },
            attributes_at: start,
            attributes_len: length,
            age: 0,
        })
    }
}

/// A body that is given entries: where it ends, where its count stands, and the count.
pub struct Builder {
    layout: Layout,
    pub len: usize,
    at: usize,
    count: u16,
}

/// A body with no entry at the front of the output: 6, 10, 9.
pub fn begin(out: &mut [u8], subtype: u16, sequence: u32, bits: u8, prefix: &[u8; 16]) -> Result<Builder, u8> {
    let layout = layout(subtype).ok_or(6)?;
    if bits > layout.most {
        return Err(10);
    }
    let at = 5 + usize::from(bits).div_ceil(8);
    let head = out.get_mut(..at + 2).ok_or(9)?;
    let kept = u128::MAX.checked_shl(128 - u32::from(bits)).unwrap_or(0);
    let clean = (u128::from_be_bytes(*prefix) & kept).to_be_bytes();
    head[..4].copy_from_slice(&sequence.to_be_bytes());
    head[4] = bits;
    head[5..at].copy_from_slice(&clean[..at - 5]);
    head[at..].fill(0);
    Ok(Builder { layout, len: at + 2, at, count: 0 })
}

impl Builder {
    /// A builder from its three numbers: where it ends, where its count stands, the count.
    #[inline(always)]
    pub fn at(subtype: u16, [len, at, count]: [u64; 3]) -> Option<Self> {
        Some(Builder { layout: layout(subtype)?, len: len as usize, at: at as usize, count: count as u16 })
    }

    pub fn state(&self) -> [u64; 3] {
        [self.len as u64, self.at as u64, u64::from(self.count)]
    }

    /// One more entry in the output that holds the body: 8, 10, 9.
    #[inline(always)]
    pub fn push(&mut self, out: &mut [u8], entry: &NewEntry) -> Result<(), u8> {
        self.put(out, entry)?;
        self.store_count(out);
        Ok(())
    }

    /// The count of the entries, in the head.
    #[inline(always)]
    pub fn store_count(&self, out: &mut [u8]) {
        out[self.at..self.at + 2].copy_from_slice(&self.count.to_be_bytes());
    }

    /// The entry alone: the count in the head stays.
    #[inline(always)]
    pub fn put(&mut self, out: &mut [u8], entry: &NewEntry) -> Result<(), u8> {
        let fixed = self.layout.fixed;
        let count = self.count.checked_add(1).ok_or(10)?;
        let length = u16::try_from(entry.attributes.len()).map_err(|_| 10)?;
        if entry.path != 0 && fixed == 8 {
            return Err(10);
        }
        let size = fixed + entry.attributes.len();
        let octets = out.get_mut(self.len..).ok_or(8)?.get_mut(..size).ok_or(9)?;
        octets[..2].copy_from_slice(&entry.peer_index.to_be_bytes());
        octets[2..6].copy_from_slice(&entry.originated.to_be_bytes());
        if fixed == 12 {
            octets[6..10].copy_from_slice(&entry.path.to_be_bytes());
        }
        octets[fixed - 2..fixed].copy_from_slice(&length.to_be_bytes());
        octets[fixed..].copy_from_slice(entry.attributes);
        (self.len, self.count) = (self.len + size, count);
        Ok(())
    }
}
