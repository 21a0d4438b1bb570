//! TABLE_DUMP bodies read and written: the layout octet by octet, refusals in their order, and round trips over real records.

use mrt_oracle::answers::{Answer, DumpedRoute, NewDump, TableDump};
use mrt_oracle::campaigns::real;
use mrt_oracle::reading::{read_table_dump, write_table_dump};
use std::path::Path;

/// View 0x0102, sequence 0x0304, prefix, 9 bits, status 1, originated 0x05060708, peer address, AS 0xfde9, attributes.
fn body(prefix: &[u8], peer: &[u8]) -> Vec<u8> {
    [&[1, 2, 3, 4][..], prefix, &[9, 1, 5, 6, 7, 8], peer, &[0xfd, 0xe9, 0, 3, 64, 1, 1]].concat()
}

fn route(prefix: [u8; 16], peer: [u8; 16]) -> DumpedRoute {
    let (view, sequence, originated) = (0x0102, 0x0304, 0x0506_0708);
    DumpedRoute { view, sequence, prefix, bits: 9, status: 1, originated, peer, asn: 0xfde9 }
}

fn four(octets: [u8; 4]) -> [u8; 16] {
    std::array::from_fn(|place| octets.get(place).copied().unwrap_or(0))
}

/// Both families: the subtype, a body, and its route. The prefix has bits after its nine.
fn families() -> [(u16, Vec<u8>, DumpedRoute); 2] {
    let (prefix, peer) = ([10, 0xff, 0xfe, 0xfd], [192, 0, 2, 1]);
    let wide = |first: u8| std::array::from_fn(|place| first + place as u8);
    [
        (1, body(&prefix, &peer), route(four(prefix), four(peer))),
        (2, body(&wide(0x20), &wide(0x80)), route(wide(0x20), wide(0x80))),
    ]
}

fn refused<T: Default>(refusal: u8) -> Answer<T> {
    Answer { refusal, value: T::default() }
}

#[test]
fn each_field_is_read_where_it_stands() {
    for (subtype, body, route) in families() {
        let read = TableDump { route, attributes_at: body.len() - 3, attributes_end: body.len() };
        assert_eq!(read_table_dump(subtype, &body), Answer { refusal: 0, value: read });
        for other in [0, 3, 65_535] {
            assert_eq!(read_table_dump(other, &body), refused(6));
        }
        assert_eq!(read_table_dump(3 - subtype, &body), refused(7));
    }
}

#[test]
fn a_body_is_as_long_as_its_attributes_say() {
    for (subtype, mut body, _) in families() {
        let n = body.len();
        for length in 0..n {
            assert_eq!(read_table_dump(subtype, &body[..length]), refused(7));
        }
        body.push(0);
        assert_eq!(read_table_dump(subtype, &body), refused(7));
        body[n - 4] += 1;
        assert_eq!(read_table_dump(subtype, &body).value.attributes_end, n + 1);
        body[n - 5] = 1;
        assert_eq!(read_table_dump(subtype, &body), refused(7));
    }
    assert_eq!(read_table_dump(1, &[]), refused(7));
    assert_eq!(read_table_dump(3, &[]), refused(6));
}

#[test]
fn a_prefix_has_no_more_bits_than_an_address() {
    for ((subtype, mut body, _), (at, most)) in families().into_iter().zip([(8, 32), (20, 128)]) {
        for (bits, refusal) in [(0, 0), (most, 0), (most + 1, 7), (255, 7)] {
            body[at] = bits;
            let answer = read_table_dump(subtype, &body);
            assert_eq!((answer.refusal, answer.value.route.bits), (refusal, if refusal == 0 { bits } else { 0 }));
        }
    }
}

#[test]
fn what_is_written_changes_no_octet_after_it() {
    for (subtype, body, mut route) in families() {
        if subtype == 1 {
            // of sixteen octets the first four are written
            route.prefix[4..].fill(0x77);
            route.peer[4..].fill(0x77);
        }
        let n = body.len();
        let dump = NewDump { subtype, route, attributes: &[64, 1, 1] };
        for spare in [0, 1, 5] {
            let mut out = vec![0xaa; n + spare];
            assert_eq!(write_table_dump(&mut out, &dump), Answer { refusal: 0, value: n });
            assert_eq!((&out[..n], &out[n..]), (&body[..], &vec![0xaa; spare][..]));
        }
        let mut out = vec![0xaa; n - 1];
        assert_eq!((write_table_dump(&mut out, &dump), out), (refused(9), vec![0xaa; n - 1]));
    }
}

/// Each with all that comes after it wrong too: 6 before 10 before 9.
#[test]
fn the_writer_refuses_in_order() {
    let long = vec![7; 65_536];
    let ([(_, _, four), (_, _, wide)], fits) = (families(), &long[..65_535]);
    for (subtype, route, attributes, refusal) in [
        (0, DumpedRoute { bits: 255, asn: 65_536, ..four }, &long[..], 6),
        (3, four, fits, 6),
        (1, DumpedRoute { bits: 33, ..four }, fits, 10),
        (1, DumpedRoute { asn: 65_536, ..four }, fits, 10),
        (1, DumpedRoute { asn: u32::MAX, ..four }, fits, 10),
        (1, four, &long, 10),
        (2, DumpedRoute { bits: 129, ..wide }, fits, 10),
        (1, DumpedRoute { bits: 32, asn: 65_535, ..four }, fits, 9),
        (2, DumpedRoute { bits: 128, asn: 65_535, ..wide }, fits, 9),
    ] {
        let dump = NewDump { subtype, route, attributes };
        let mut out = vec![0xaa; 22 + 24 * usize::from(subtype == 2) + 65_534];
        let before = out.clone();
        assert_eq!((write_table_dump(&mut out, &dump), &out), (refused(refusal), &before));
        out.push(0xaa);
        let served = if refusal == 9 { 0 } else { refusal };
        assert_eq!(write_table_dump(&mut out, &dump).refusal, served);
    }
}

/// How many records of a file were read, written as they were read, and read again, by subtype.
fn round_trips(file: &[u8]) -> [usize; 2] {
    let mut counts = [0; 2];
    for (subtype, body) in real::table_dump_bodies(file) {
        let Answer { refusal: 0, value: read } = read_table_dump(subtype, body) else {
            panic!("a body that the walk hands out is read");
        };
        let attributes = &body[read.attributes_at..read.attributes_end];
        let dump = NewDump { subtype, route: read.route, attributes };
        let mut out = vec![0xaa; body.len() + 1];
        assert_eq!(write_table_dump(&mut out, &dump), Answer { refusal: 0, value: body.len() });
        assert_eq!((&out[..body.len()], out[body.len()]), (body, 0xaa));
        assert_eq!(read_table_dump(subtype, &out[..body.len()]).value, read);
        counts[usize::from(subtype) - 1] += 1;
    }
    counts
}

fn of_folder(folder: &Path, name: &str) -> Option<[usize; 2]> {
    let files = real::files(folder).ok()?;
    files.iter().find(|(found, _)| found == name).map(|(_, file)| round_trips(file))
}

#[test]
fn real_records_are_written_as_they_were_read() {
    let replayed = Path::new(env!("CARGO_MANIFEST_DIR")).join("../crates/oracle_replay/data");
    assert_eq!(of_folder(&replayed, "mrtparse_openbgpd_rib_table.mrt"), Some([11, 20]));
    assert_eq!(of_folder(&replayed, "obgpd77_table_across_families.mrt"), Some([300, 200]));
    assert_eq!(of_folder(&replayed, "pyasn_rib.20080501.0644_first_65536.mrt"), Some([895, 0]));
    // the whole files, where they are at hand
    for (name, counts) in
        [("obgpd77_table.mrt", [11_311, 5_233]), ("pyasn_rib.20080501.0644_firstMB.mrt", [139_291, 0])]
    {
        assert!(of_folder(&real::folder(), name).is_none_or(|found| found == counts), "{name}");
    }
}
