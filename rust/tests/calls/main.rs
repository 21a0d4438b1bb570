//! Every call with plain and odd arguments, round trips, and whole walks.

mod dumps;
mod headers;
mod listings;
mod missing;
mod peers;
mod ribs;
mod walks;

/// The record of a type and subtype with a body.
fn record(kind: u16, subtype: u16, body: &[u8]) -> Vec<u8> {
    let mut octets = vec![0, 0, 0, 9];
    octets.extend(kind.to_be_bytes());
    octets.extend(subtype.to_be_bytes());
    octets.extend((body.len() as u32).to_be_bytes());
    octets.extend(body);
    octets
}

/// A state change of two IPv4 neighbours, 32 octets.
fn state_change() -> Vec<u8> {
    record(16, 0, &[0, 1, 0, 2, 0, 0, 0, 1, 192, 0, 2, 1, 192, 0, 2, 2, 0, 5, 0, 6])
}

/// A BGP message of this type and so many octets between two IPv4 neighbours, behind microseconds.
fn message(micros: u32, bgp: u8, length: u8) -> Vec<u8> {
    let mut body = micros.to_be_bytes().to_vec();
    body.extend([0, 1, 0, 2, 0, 0, 0, 1, 192, 0, 2, 1, 192, 0, 2, 2]);
    body.extend([255; 16]);
    body.extend([0, length, bgp]);
    body.resize(20 + usize::from(length), 0);
    record(17, 1, &body)
}

fn keepalive(micros: u32, length: u8) -> Vec<u8> {
    message(micros, 4, length)
}

/// Numbers that look random and are the same in every run.
struct Random(u64);

impl Random {
    fn next(&mut self) -> u64 {
        self.0 ^= self.0 << 13;
        self.0 ^= self.0 >> 7;
        self.0 ^= self.0 << 17;
        self.0
    }

    fn below(&mut self, n: usize) -> usize {
        (self.next() % n.max(1) as u64) as usize
    }

    fn octets(&mut self, n: usize) -> Vec<u8> {
        (0..n).map(|_| self.next() as u8).collect()
    }
}
