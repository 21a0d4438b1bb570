//! TABLE_DUMP bodies, read and written.

use crate::{Random, record};
use mrt::{Candidate, Item, NewTableDump, Prefix, Record, Refusal, StoredLength, TableDump, Walk, check_body};
use std::fs;
use std::net::IpAddr;
use std::path::Path;

fn address(text: &str) -> IpAddr {
    text.parse().unwrap()
}

/// The octets of a body before its attributes.
fn fixed(subtype: u16) -> usize {
    if subtype == 1 { 22 } else { 46 }
}

fn most_bits(subtype: u16) -> u8 {
    if subtype == 1 { 32 } else { 128 }
}

/// A dump in which nothing is 0. Of an IPv4 prefix and address the first four octets count, and zeros stand after them.
fn dump(subtype: u16, attributes: &[u8]) -> NewTableDump<'_> {
    let size = if subtype == 1 { 4 } else { 16 };
    let (mut octets, mut peer) = ([0; 16], [0; 16]);
    octets[..size].fill(0xf1);
    peer[..size].fill(0xf2);
    let prefix = Prefix { octets, bits: 17 };
    NewTableDump { subtype, view: 1, sequence: 65_535, prefix, status: 9, originated: 5, peer, asn: 65_535, attributes }
}

fn written(dump: &NewTableDump<'_>) -> Vec<u8> {
    let mut out = vec![0x5a; fixed(dump.subtype) + dump.attributes.len()];
    assert_eq!(dump.write(&mut out), Ok(out.len()));
    out
}

/// The layout of RFC 6396, octet by octet.
#[test]
fn each_field_stands_at_its_place() {
    let body = [
        &[1, 2, 3, 4, 10, 11, 12, 13, 30, 5][..], // view, sequence, prefix, bits, status
        &[21, 22, 23, 24, 192, 0, 2, 7, 251, 240, 0, 2, 8, 9], // originated time, peer, AS, attribute length, attributes
    ]
    .concat();
    let dump = TableDump::read(&body, 1).unwrap();
    assert_eq!((dump.view, dump.sequence, dump.prefix.bits, dump.status), (0x0102, 0x0304, 30, 5));
    assert_eq!((dump.originated, dump.asn, dump.attributes, dump.subtype), (0x15161718, 64_496, &[8, 9][..], 1));
    assert_eq!((dump.network(), dump.peer_address()), (address("10.11.12.13"), address("192.0.2.7")));
    assert_eq!((&dump.prefix.octets[4..], &dump.peer[4..]), (&[0; 12][..], &[0; 12][..]));
    assert_eq!(dump.attributes.as_ptr(), body[22..].as_ptr());

    let (prefix, peer) = ([0x20, 1, 0xd, 0xb8, 0, 0, 0, 0, 0, 0, 0, 0, 0, 0, 0, 1], [0xfd; 16]);
    let body = [&[0, 0, 0, 0][..], &prefix, &[64, 1, 0, 0, 0, 1], &peer, &[0, 7, 0, 0]].concat();
    let dump = TableDump::read(&body, 2).unwrap();
    assert_eq!((dump.prefix, dump.peer), (Prefix { octets: prefix, bits: 64 }, peer));
    assert_eq!((dump.originated, dump.asn, dump.attributes), (1, 7, &[][..]));
    assert_eq!((dump.network(), dump.peer_address()), (address("2001:db8::1"), IpAddr::from([0xfd; 16])));
}

/// The body is met neither for the reader nor for the check.
fn not_met(body: &[u8], subtype: u16) {
    assert_eq!(TableDump::read(body, subtype), Err(Refusal::BodyNotMet));
    assert_eq!(check_body(body, 12, subtype, StoredLength(body.len() as u32)), Err(Refusal::BodyNotMet));
}

#[test]
fn a_body_is_as_long_as_its_attributes_say() {
    let (few, most) = ([1, 2, 3], [7; 65_535]);
    for (subtype, attributes) in [(1, &[][..]), (1, &few), (1, &most), (2, &[]), (2, &few), (2, &most)] {
        let body = written(&dump(subtype, attributes));
        assert_eq!(TableDump::read(&body, subtype).unwrap().attributes, attributes);
        not_met(&[&body[..], &[0]].concat(), subtype);
        not_met(&body[..body.len() - 1], subtype);
        not_met(&body[..fixed(subtype) - 1], subtype);
        not_met(&[], subtype);
    }
}

#[test]
fn other_subtypes_are_refused_whatever_the_body() {
    for subtype in [0, 3, 257, u16::MAX] {
        let refused = |body: &[u8]| {
            assert_eq!(TableDump::read(body, subtype), Err(Refusal::OtherSubtype));
            assert_eq!(Record::read(&record(12, subtype, body), 0), Err(Refusal::OtherSubtype));
        };
        refused(&written(&dump(1, &[])));
        refused(&written(&dump(2, &[])));
        refused(&[]);
        let worst = NewTableDump { prefix: Prefix { octets: [0; 16], bits: 255 }, asn: u32::MAX, ..dump(subtype, &[]) };
        assert_eq!(worst.write(&mut []), Err(Refusal::OtherSubtype));
    }
}

#[test]
fn both_sides_of_the_prefix_bits() {
    for (subtype, bits) in [(1, 0), (1, 32), (1, 33), (1, 255), (2, 0), (2, 33), (2, 128), (2, 129), (2, 255)] {
        let (good, fits) = (dump(subtype, &[1]), bits <= most_bits(subtype));
        let mut body = written(&good);
        body[if subtype == 1 { 8 } else { 20 }] = bits;
        let read = TableDump::read(&body, subtype).map(|dump| dump.prefix.bits);
        assert_eq!(read, if fits { Ok(bits) } else { Err(Refusal::BodyNotMet) });
        let mut out = vec![0x5a; body.len()];
        let answer = NewTableDump { prefix: Prefix { bits, ..good.prefix }, ..good }.write(&mut out);
        assert_eq!(answer, if fits { Ok(body.len()) } else { Err(Refusal::TooLarge) });
        assert_eq!(out, if fits { body } else { vec![0x5a; body.len()] });
    }
}

/// The write into so many octets is refused and leaves them.
fn refused(dump: NewTableDump<'_>, room: usize, refusal: Refusal) {
    let mut out = vec![0x5a; room];
    assert_eq!(dump.write(&mut out), Err(refusal), "{room}");
    assert!(out.iter().all(|octet| *octet == 0x5a));
}

#[test]
fn a_refused_write_leaves_the_output() {
    let big = vec![0; 65_536];
    for subtype in [1, 2] {
        let (good, size) = (dump(subtype, &[3]), fixed(subtype) + 1);
        let (most, large) = (NewTableDump { attributes: &big[1..], ..good }, NewTableDump { attributes: &big, ..good });
        refused(NewTableDump { asn: 65_536, ..good }, size, Refusal::TooLarge);
        refused(NewTableDump { asn: u32::MAX, ..good }, 0, Refusal::TooLarge);
        refused(large, size + 65_535, Refusal::TooLarge);
        refused(large, 0, Refusal::TooLarge);
        refused(most, size + 65_533, Refusal::NoRoom);
        refused(good, size - 1, Refusal::NoRoom);
        refused(good, 0, Refusal::NoRoom);
        let mut out = vec![0x5a; size + 9];
        assert_eq!((good.write(&mut out), &out[size..]), (Ok(size), &[0x5a; 9][..]));
    }
}

#[test]
fn an_ipv4_address_is_its_first_four_octets_alone() {
    let good = dump(1, &[1, 2]);
    let mut odd = good;
    odd.prefix.octets[4..].fill(7);
    odd.peer[4..].fill(8);
    assert_eq!(written(&odd), written(&good));
}

/// A dump of either family, with bits after the prefix.
fn some_dump<'a>(random: &mut Random, pool: &'a [u8]) -> NewTableDump<'a> {
    let subtype = 1 + random.below(2) as u16;
    let size = if subtype == 1 { 4 } else { 16 };
    let (mut octets, mut peer) = ([0; 16], [0; 16]);
    octets[..size].copy_from_slice(&random.octets(size));
    peer[..size].copy_from_slice(&random.octets(size));
    NewTableDump {
        subtype,
        view: random.next() as u16,
        sequence: random.next() as u16,
        prefix: Prefix { octets, bits: random.below(usize::from(most_bits(subtype)) + 1) as u8 },
        status: random.next() as u8,
        originated: random.next() as u32,
        peer,
        asn: u32::from(random.next() as u16),
        attributes: &pool[..random.below(pool.len())],
    }
}

#[test]
fn what_is_written_is_read_back() {
    let mut random = Random(5);
    let pool = random.octets(300);
    for _ in 0..5_000 {
        let dump = some_dump(&mut random, &pool);
        let body = written(&dump);
        let read = TableDump::read(&body, dump.subtype).unwrap();
        assert_eq!(NewTableDump::from(read), dump);
        let stream = record(12, dump.subtype, &body);
        let record = Record::read(&stream, 0).unwrap();
        assert_eq!(record.table_dump(), Some(read));
        assert!(record.rib().is_none() && record.peer_index().is_none());
        assert_eq!(Candidate::read(&stream, 0), Ok(None));
    }
}

#[test]
fn a_record_of_another_type_gives_no_table_dump() {
    // The 24 peers would do for a TABLE_DUMP record of the same subtype, with attributes of 250 octets.
    let mut body = vec![0; 8 + 24 * 11];
    body[7] = 24;
    body[20..22].copy_from_slice(&250u16.to_be_bytes());
    assert!(TableDump::read(&body, 1).is_ok());
    let stream = record(13, 1, &body);
    assert!(Record::read(&stream, 0).unwrap().table_dump().is_none());
}

/// The ages of both ends, and of a route that is later than its record.
#[test]
fn an_age_is_exact_at_both_ends() {
    let age = |originated, timestamp| {
        let body = written(&NewTableDump { originated, ..dump(1, &[]) });
        TableDump::read(&body, 1).unwrap().age(timestamp)
    };
    assert_eq!((age(0, u32::MAX), age(u32::MAX, 0), age(5, 5)), (4_294_967_295, -4_294_967_295, 0));
}

/// The table of a real OpenBGPD: every record is read, and written again as the same octets.
#[test]
fn a_real_table_is_read_and_written() {
    let folder = Path::new(env!("CARGO_MANIFEST_DIR")).join("../crates/oracle_replay/data");
    let stream = fs::read(folder.join("mrtparse_openbgpd_rib_table.mrt")).unwrap();
    let mut sequence = 0;
    for item in Walk::new(&stream) {
        let Ok(Item::Record(record)) = item else { panic!("{item:?}") };
        let dump = record.table_dump().unwrap();
        assert_eq!((dump.sequence, dump.view, dump.status, dump.asn), (sequence, 0, 1, 65_000));
        assert_eq!((dump.age(record.header.timestamp), dump.subtype), (510, if sequence < 11 { 1 } else { 2 }));
        assert_eq!(written(&dump.into()), record.body);
        sequence += 1;
    }
    assert_eq!(sequence, 31);
    let dump = Record::read(&stream, 139).unwrap().table_dump().unwrap();
    assert_eq!((dump.network(), dump.prefix.bits), (address("192.168.0.12"), 32));
    assert_eq!(dump.peer_address(), address("192.168.1.10"));
    let dump = Record::read(&stream, 694).unwrap().table_dump().unwrap();
    assert_eq!((dump.network(), dump.prefix.bits), (address("2001:db8::"), 64));
    assert_eq!(dump.peer_address(), address("2001:db8:0:1::10"));
}
