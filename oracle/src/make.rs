//! Octets of records and bodies, good and bad, from which streams are put together.

use crate::random::Random;

/// The types whose header has microseconds.
pub const TIMED: [u16; 3] = [17, 33, 49];
pub const STATE_CHANGES: [u16; 2] = [0, 5];
pub const MESSAGES: [u16; 8] = [1, 4, 6, 7, 8, 9, 10, 11];
pub const RIBS: [u16; 8] = [2, 3, 4, 5, 8, 9, 10, 11];
pub const LEGACY: [(u16, usize); 8] = [(1, 16), (1, 40), (3, 10), (5, 22), (5, 60), (6, 14), (6, 30), (7, 12)];

/// A header with any numbers in it.
pub fn header(timestamp: u32, kind: u16, subtype: u16, wire: u32) -> Vec<u8> {
    let mut out = timestamp.to_be_bytes().to_vec();
    out.extend_from_slice(&kind.to_be_bytes());
    out.extend_from_slice(&subtype.to_be_bytes());
    out.extend_from_slice(&wire.to_be_bytes());
    out
}

/// A record with a right length. A type with microseconds gets them.
pub fn record(kind: u16, subtype: u16, body: &[u8]) -> Vec<u8> {
    timed_record(kind, subtype, 7, body)
}

pub fn timed_record(kind: u16, subtype: u16, micros: u32, body: &[u8]) -> Vec<u8> {
    let timed = TIMED.contains(&kind);
    let extra = if timed { 4 } else { 0 };
    let mut out = header(0x4800_0000, kind, subtype, (body.len() + extra) as u32);
    if timed {
        out.extend_from_slice(&micros.to_be_bytes());
    }
    out.extend_from_slice(body);
    out
}

/// Two AS numbers, interface, family and two addresses.
pub fn envelope(subtype: u16, family: u16) -> Vec<u8> {
    let width = if matches!(subtype, 4 | 5 | 7 | 9 | 11) { 4 } else { 2 };
    let address = if family == 2 { 16 } else { 4 };
    let mut out = vec![1; 2 * width];
    out.extend_from_slice(&[0, 3]);
    out.extend_from_slice(&family.to_be_bytes());
    out.extend(vec![10; 2 * address]);
    out
}

pub fn state_change_body(subtype: u16, family: u16) -> Vec<u8> {
    let mut out = envelope(subtype, family);
    out.extend_from_slice(&[0, 1, 0, 2]);
    out
}

/// A BGP message of this type and length, 19 at the least.
pub fn bgp_message(kind: u8, length: u16) -> Vec<u8> {
    let mut out = vec![255; 16];
    out.extend_from_slice(&length.to_be_bytes());
    out.push(kind);
    out.resize(usize::from(length), 0);
    out
}

pub fn message_body(subtype: u16, family: u16, kind: u8, length: u16) -> Vec<u8> {
    let mut out = envelope(subtype, family);
    out.extend(bgp_message(kind, length));
    out
}

/// A peer's octets; its address ends with `last`.
pub fn peer(kind: u8, last: u8, asn: u32) -> Vec<u8> {
    let mut out = vec![kind, 1, 2, 3, last];
    out.extend(vec![10; if kind & 1 != 0 { 15 } else { 3 }]);
    out.push(last);
    out.extend_from_slice(&asn.to_be_bytes()[if kind & 2 != 0 { 0 } else { 2 }..]);
    out
}

/// A peer table's body that declares `count` peers and holds these octets of peers.
pub fn peer_table(view: &[u8], count: u16, peers: &[u8]) -> Vec<u8> {
    let mut out = vec![192, 0, 2, 1];
    out.extend_from_slice(&(view.len() as u16).to_be_bytes());
    out.extend_from_slice(view);
    out.extend_from_slice(&count.to_be_bytes());
    out.extend_from_slice(peers);
    out
}

/// A RIB body up to its entries.
pub fn rib_head(sequence: u32, bits: u8, prefix: u8, declared: u16) -> Vec<u8> {
    let mut out = sequence.to_be_bytes().to_vec();
    out.push(bits);
    out.extend(vec![prefix; usize::from(bits).div_ceil(8)]);
    out.extend_from_slice(&declared.to_be_bytes());
    out
}

pub fn rib_entry(subtype: u16, peer_index: u16, attributes: &[u8]) -> Vec<u8> {
    let mut out = peer_index.to_be_bytes().to_vec();
    out.extend_from_slice(&0x4700_0000u32.to_be_bytes());
    if (8..=11).contains(&subtype) {
        out.extend_from_slice(&[0, 0, 0, 9]);
    }
    out.extend_from_slice(&(attributes.len() as u16).to_be_bytes());
    out.extend_from_slice(attributes);
    out
}

/// A TABLE_DUMP body, its octets before the attribute length all different. Addresses have 16 octets for subtype 2 alone.
pub fn table_dump(subtype: u16, bits: u8, attributes: &[u8]) -> Vec<u8> {
    let x = if subtype == 2 { 16 } else { 4 };
    let mut out = vec![1, 2, 3, 4];
    out.extend(0xe0..0xe0 + x);
    out.extend([bits, 5, 0x47, 6, 7, 8]);
    out.extend(0x90..0x90 + x);
    out.extend([0xfd, 0xe9]);
    out.extend((attributes.len() as u16).to_be_bytes());
    out.extend_from_slice(attributes);
    out
}

/// A record that passes all checks.
pub fn good_record(random: &mut Random) -> Vec<u8> {
    let kind = random.pick(&[16, 17]);
    let family = random.pick(&[1, 2]);
    match random.below(9) {
        0..=2 => {
            let subtype = random.pick(&STATE_CHANGES);
            record(kind, subtype, &state_change_body(subtype, family))
        }
        3..=5 => good_message(random, kind, family),
        6 => {
            let (subtype, length) = random.pick(&LEGACY);
            record(5, subtype, &vec![0; length])
        }
        7 => good_table(random),
        _ => {
            let (subtype, bits) = random.pick(&[(1, 0), (1, 24), (1, 32), (2, 0), (2, 33), (2, 128)]);
            record(12, subtype, &table_dump(subtype, bits, random.pick(&[&[], &[64, 1, 1, 0]])))
        }
    }
}

fn good_message(random: &mut Random, kind: u16, family: u16) -> Vec<u8> {
    let subtype = random.pick(&MESSAGES);
    let (bgp, length) = random.pick(&[(1, 29), (2, 23), (2, 60), (3, 21), (4, 19)]);
    let micros = random.pick(&[0, 5, 999_999, 1_000_000, u32::MAX]);
    timed_record(kind, subtype, micros, &message_body(subtype, family, bgp, length))
}

fn good_table(random: &mut Random) -> Vec<u8> {
    if random.once_in(2) {
        let peers = [peer(random.octet(), 1, 65_001), peer(random.octet(), 2, 65_002)].concat();
        return record(13, 1, &peer_table(b"view", 2, &peers));
    }
    let subtype = random.pick(&RIBS);
    let mut body = rib_head(1, random.pick(&[0, 9, 24, 32]), 10, 2);
    body.extend(rib_entry(subtype, 0, &[64, 1, 1, 0]));
    body.extend(rib_entry(subtype, 1, &[]));
    record(13, subtype, &body)
}

/// One octet more or fewer than the attribute length says, a prefix bit too many, or another subtype.
fn bad_table_dump(random: &mut Random) -> Vec<u8> {
    let subtype = random.pick(&[1, 2]);
    let mut body = table_dump(subtype, 24, &[64, 1, 1, 0]);
    match random.below(4) {
        0 => body.push(0),
        1 => drop(body.pop()),
        2 => body = table_dump(subtype, if subtype == 1 { 33 } else { 129 }, &[]),
        _ => return record(12, random.pick(&[0, 3, 3 - subtype, 65_535]), &body),
    }
    record(12, subtype, &body)
}

/// An OPEN that is one octet too short or more.
fn bad_open(random: &mut Random) -> Vec<u8> {
    let subtype = random.pick(&MESSAGES);
    let body = message_body(subtype, random.pick(&[1, 2]), 1, random.pick(&[19, 20, 27, 28]));
    timed_record(random.pick(&[16, 17]), subtype, 5, &body)
}

/// A type with microseconds and a wire length under 4, with as many octets behind it or none.
fn short_length(random: &mut Random) -> Vec<u8> {
    let wire = random.below(4);
    let mut out = header(0, random.pick(&TIMED), 0, wire as u32);
    out.extend(vec![0; random.pick(&[0, wire])]);
    out
}

/// A record that is framed and refused with 5, 6 or 7, or one that is not framed.
pub fn bad_record(random: &mut Random) -> Vec<u8> {
    let length = random.below(40);
    let body = random.octets(length);
    match random.below(8) {
        0 => record(random.pick(&[0, 4, 11, 32, 33, 48, 49]), random.below(4) as u16, &body),
        1 => record(random.pick(&[5, 12, 13, 16, 17]), random.pick(&[2, 3, 6, 7, 12, 99]), &body),
        2 => record(random.pick(&[5, 12, 13, 16, 17]), random.below(12) as u16, &body),
        3 => record(random.pick(&[14, 15, 18, 255, 256, 65_535]), 0, &body),
        4 => short_length(random),
        5 => bad_table_dump(random),
        6 => bad_open(random),
        _ => header(0, random.pick(&[5, 12, 13, 16, 17, 32]), 1, random.pick(&[100, 70_000, 1 << 24, u32::MAX])),
    }
}
