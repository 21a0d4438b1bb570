//! RIB bodies, read and written.

use crate::Random;
use mrt::{Entries, Entry, Prefix, Record, Refusal, Rib, RibBuilder, add_entry};

const SUBTYPES: [u16; 8] = [2, 3, 4, 5, 8, 9, 10, 11];

fn prefix(bits: u8) -> Prefix {
    Prefix { octets: [255; 16], bits }
}

/// The body of 0/0 with the declared count and the octets after it.
fn body(declared: u8, entries: &[u8]) -> Vec<u8> {
    [&[0, 0, 0, 9, 0, 0, declared], entries].concat()
}

#[test]
fn both_sides_of_the_head() {
    for subtype in SUBTYPES {
        let most = if matches!(subtype, 4 | 5 | 10 | 11) { 128 } else { 32 };
        let whole = [&[0, 0, 0, 1, most][..], &[255; 16][..usize::from(most) / 8], &[0, 0]].concat();
        assert_eq!(Rib::read(&whole, subtype).unwrap().prefix.bits, most);
        assert_eq!(Rib::read(&whole[..whole.len() - 1], subtype), Err(Refusal::BodyNotMet));
        let over = [&[0, 0, 0, 1, most + 1][..], &[0; 24]].concat();
        assert_eq!(Rib::read(&over, subtype), Err(Refusal::BodyNotMet));
        assert_eq!(Entries::read(&over, subtype).unwrap_err(), Refusal::BodyNotMet);
        assert_eq!(Rib::read(&[], subtype), Err(Refusal::BodyNotMet));
    }
}

#[test]
fn other_subtypes_are_refused_whatever_the_body() {
    for subtype in [0, 1, 6, 7, 12, u16::MAX] {
        assert_eq!(Rib::read(&[], subtype), Err(Refusal::OtherSubtype));
        assert_eq!(Entries::read(&[], subtype).unwrap_err(), Refusal::OtherSubtype);
    }
}

#[test]
fn bits_after_the_prefix_are_cleared() {
    let rib = Rib::read(&[0, 0, 0, 0, 9, 0x0a, 0xff, 0, 0], 2).unwrap();
    assert_eq!((rib.network().to_string().as_str(), rib.prefix.bits), ("10.128.0.0", 9));
    let rib = Rib::read(&[0, 0, 0, 0, 9, 0x20, 0xff, 0, 0], 4).unwrap();
    assert_eq!(rib.network().to_string(), "2080::");
}

#[test]
fn reading_stops_at_the_first_entry_that_does_not_fit() {
    let one = [0, 7, 0, 0, 0, 50, 0, 1, 0xaa];
    let body = body(2, &[&one[..], &one[..8]].concat());
    let rib = Rib::read(&body, 2).unwrap();
    assert_eq!((rib.declared, rib.count), (2, 1));
    let entry = Entry { peer: 7, originated: 50, path: 0, attributes: &[0xaa] };
    assert_eq!(rib.entry(0), Ok(entry));
    for i in [1, 2, usize::MAX] {
        assert_eq!(rib.entry(i), Err(Refusal::Beyond));
    }
    let mut entries = rib.entries();
    assert_eq!(entries.size_hint(), (0, Some(2)));
    assert_eq!((entries.next(), entries.next(), entries.next()), (Some(entry), None, None));
    assert_eq!(Entries::read(&body, 2).unwrap().collect::<Vec<_>>(), [entry]);
}

#[test]
fn an_age_is_exact_at_both_ends() {
    let originated = |originated| Entry { originated, ..Entry::default() };
    assert_eq!(originated(0).age(u32::MAX), 4_294_967_295);
    assert_eq!(originated(u32::MAX).age(0), -4_294_967_295);
    assert_eq!(originated(5).age(5), 0);
}

#[test]
fn a_begun_body_fills_its_room_or_is_refused() {
    let refused = |room: usize, subtype, bits| {
        let mut out = vec![0x5a; room];
        let refusal = RibBuilder::begin(&mut out, subtype, 1, &prefix(bits)).unwrap_err();
        assert!(out.iter().all(|octet| *octet == 0x5a));
        refusal
    };
    assert_eq!(refused(0, 1, 255), Refusal::OtherSubtype);
    assert_eq!(refused(0, 2, 33), Refusal::TooLarge);
    assert_eq!(refused(99, 4, 129), Refusal::TooLarge);
    assert_eq!(refused(10, 2, 32), Refusal::NoRoom);
    let mut out = [0x5a; 12];
    let builder = RibBuilder::begin(&mut out[..11], 2, 1, &prefix(31)).unwrap();
    assert_eq!((builder.count(), builder.body()), (0, &[0, 0, 0, 1, 31, 255, 255, 255, 254, 0, 0][..]));
    assert_eq!(builder.finish().len(), 11);
    assert_eq!(out[11], 0x5a);
}

#[test]
fn an_entry_that_is_refused_changes_nothing() {
    let big = vec![0; 65_536];
    let entry = Entry { peer: 1, originated: 2, path: 0, attributes: &[3] };
    let mut out = [0x5a; 15];
    let mut builder = RibBuilder::begin(&mut out, 2, 1, &prefix(0)).unwrap();
    let before = builder.body().to_vec();
    for (entry, refusal) in [
        (Entry { path: 1, ..entry }, Refusal::TooLarge),
        (Entry { attributes: &big, ..entry }, Refusal::TooLarge),
        (Entry { attributes: &big[1..], ..entry }, Refusal::NoRoom),
        (entry, Refusal::NoRoom),
    ] {
        assert_eq!(builder.push(&entry), Err(refusal));
        assert_eq!((builder.count(), builder.body()), (0, &before[..]));
    }
    assert_eq!(builder.push(&Entry { attributes: &[], ..entry }), Ok(()));
    assert_eq!((builder.count(), builder.body().len()), (1, 15));
}

#[test]
fn a_body_is_taken_up_where_it_is_whole() {
    let mut out = body(1, &[0; 12]);
    assert_eq!(RibBuilder::open(&mut out, 20, 2).unwrap_err(), Refusal::Beyond);
    assert_eq!(RibBuilder::open(&mut out, 19, 7).unwrap_err(), Refusal::OtherSubtype);
    assert_eq!(RibBuilder::open(&mut out, 16, 2).unwrap_err(), Refusal::BodyNotMet);
    assert_eq!(RibBuilder::open(&mut out, 14, 2).unwrap_err(), Refusal::BodyNotMet);
    assert_eq!(RibBuilder::open(&mut out, 15, 2).unwrap().count(), 1);
    let entry = Entry::default();
    assert_eq!(add_entry(&mut out, 20, 7, &entry), Err(Refusal::Beyond));
    assert_eq!(add_entry(&mut out, 19, 7, &entry), Err(Refusal::OtherSubtype));
    assert_eq!(add_entry(&mut out, 16, 2, &entry), Err(Refusal::BodyNotMet));
    assert_eq!(add_entry(&mut out, 15, 2, &Entry { path: 1, ..entry }), Err(Refusal::TooLarge));
    assert_eq!(add_entry(&mut out, 15, 2, &entry), Err(Refusal::NoRoom));
    assert_eq!(out, body(1, &[0; 12]));
}

#[test]
fn the_last_entry_that_a_count_can_hold() {
    let mut out = vec![0; 7 + 8 * 65_536];
    let mut builder = RibBuilder::begin(&mut out, 2, 1, &prefix(0)).unwrap();
    for _ in 0..65_535 {
        builder.push(&Entry::default()).unwrap();
    }
    assert_eq!(builder.push(&Entry::default()), Err(Refusal::TooLarge));
    assert_eq!(Rib::read(builder.body(), 2).unwrap().count, 65_535);
}

/// A few entries with attributes out of a pool.
fn entries<'a>(random: &mut Random, pool: &'a [u8], paths: bool) -> Vec<Entry<'a>> {
    let count = random.below(6);
    let mut entry = || Entry {
        peer: random.next() as u16,
        originated: random.next() as u32,
        path: if paths { random.next() as u32 } else { 0 },
        attributes: &pool[..random.below(pool.len())],
    };
    (0..count).map(|_| entry()).collect()
}

/// A body that is given all entries by a builder, and by adding.
fn built(subtype: u16, sequence: u32, prefix: &Prefix, entries: &[Entry<'_>]) -> Vec<u8> {
    let (mut out, mut added) = ([0; 2_048], [0; 2_048]);
    let mut builder = RibBuilder::begin(&mut out, subtype, sequence, prefix).unwrap();
    let mut len = RibBuilder::begin(&mut added, subtype, sequence, prefix).unwrap().finish().len();
    for entry in entries {
        builder.push(entry).unwrap();
        len = add_entry(&mut added, len, subtype, entry).unwrap();
    }
    assert_eq!(builder.body(), &added[..len]);
    builder.finish().to_vec()
}

#[test]
fn what_is_built_is_read_back() {
    let mut random = Random(2);
    let pool = random.octets(300);
    for turn in 0..2_000 {
        let subtype = SUBTYPES[turn % 8];
        let entries = entries(&mut random, &pool, subtype > 7);
        let prefix = Prefix { octets: [0; 16], bits: random.below(33) as u8 };
        let body = built(subtype, turn as u32, &prefix, &entries);
        let rib = Rib::read(&body, subtype).unwrap();
        assert_eq!((rib.sequence, rib.prefix, usize::from(rib.count)), (turn as u32, prefix, entries.len()));
        assert_eq!(rib.entries().collect::<Vec<_>>(), entries);
    }
}

/// Entries whose attributes are parts of the pool, of other octets or of none, some of which no body takes.
fn mixed<'a>(random: &mut Random, pool: &'a [u8], other: &'a [u8], paths: bool) -> Vec<Entry<'a>> {
    let count = random.below(60);
    let mut entry = || {
        let octets = if random.below(20) == 0 { other } else { pool };
        let start = random.below(octets.len());
        let most = if random.below(40) == 0 { 70_000 } else { 40 };
        let octets = &octets[start..];
        Entry {
            peer: random.next() as u16,
            originated: random.next() as u32,
            path: if paths || random.below(60) == 0 { random.next() as u32 } else { 0 },
            attributes: &octets[..random.below(most).min(octets.len())],
        }
    };
    (0..count).map(|_| entry()).collect()
}

#[test]
fn entries_written_together_are_those_pushed_one_by_one() {
    let mut random = Random(3);
    let (pool, other) = (random.octets(80_000), random.octets(80_000));
    let mut met = [0; 3];
    for turn in 0..3_000 {
        let subtype = SUBTYPES[turn % 8];
        let entries = mixed(&mut random, &pool, &other, subtype > 7);
        let room = 7 + random.below(2_000) + random.below(2) * 200_000;
        let (mut together, mut apart) = (vec![0x5a; room], vec![0x5a; room]);
        let mut all = RibBuilder::begin(&mut together, subtype, 1, &prefix(0)).unwrap();
        let mut one = RibBuilder::begin(&mut apart, subtype, 1, &prefix(0)).unwrap();
        let answer = all.extend_from(&pool, entries.iter().copied());
        assert_eq!(answer, entries.iter().try_for_each(|entry| one.push(entry)));
        assert_eq!((all.count(), all.body()), (one.count(), one.body()));
        assert_eq!(together, apart);
        met[match answer {
            Ok(()) => 0,
            Err(Refusal::TooLarge) => 1,
            Err(_) => 2,
        }] += 1;
    }
    assert!(met.iter().all(|times| *times > 100), "{met:?}");
}

/// How many entries before the refused one does not matter to what is said of it.
#[test]
fn the_first_entry_that_does_not_go_in_is_told_of() {
    let pool = vec![7; 65_536];
    let good = Entry { peer: 1, originated: 2, path: 0, attributes: &pool[3..5] };
    let (large, odd) = (Entry { attributes: &pool, ..good }, Entry { path: 1, ..good });
    let long = Entry { attributes: &pool[1..], ..good };
    for before in 0..40 {
        for (refused, refusal) in [(large, Refusal::TooLarge), (odd, Refusal::TooLarge), (long, Refusal::NoRoom)] {
            let mut entries = vec![good; before];
            entries.extend([refused, long, odd, good]);
            let mut out = vec![0x5a; 7 + 60 * 10];
            let mut builder = RibBuilder::begin(&mut out, 2, 1, &prefix(0)).unwrap();
            assert_eq!(builder.extend_from(&pool, entries), Err(refusal));
            assert_eq!((usize::from(builder.count()), builder.body().len()), (before, 7 + before * 10));
            assert!(out[7 + before * 10..].iter().all(|octet| *octet == 0x5a));
        }
    }
}

#[test]
fn a_buffer_decides_nothing_but_the_time() {
    let pool: Vec<u8> = (0..100).collect();
    let entry = |start: usize, end: usize| Entry { peer: 1, originated: 2, path: 3, attributes: &pool[start..end] };
    let entries: Vec<_> = (0..50).map(|i| entry(i, 2 * i)).chain([entry(100, 100), Entry::default()]).collect();
    let built = |buffer: &[u8]| {
        let mut out = [0; 4_096];
        let mut builder = RibBuilder::begin(&mut out, 8, 1, &prefix(9)).unwrap();
        builder.extend_from(buffer, entries.iter().copied()).unwrap();
        builder.finish().to_vec()
    };
    let body = built(&[]);
    assert_eq!(Entries::read(&body, 8).unwrap().collect::<Vec<_>>(), entries);
    for (start, end) in [(0, 100), (0, 99), (1, 100), (30, 60), (60, 60), (0, 0), (100, 100)] {
        assert_eq!(built(&pool[start..end]), body, "{start} to {end}");
    }
    let same_octets = pool.clone();
    assert_eq!(built(&same_octets), body);
}

#[test]
fn a_body_that_was_read_is_written_as_the_same_octets() {
    let mut random = Random(4);
    let pool = random.octets(300);
    for turn in 0..500 {
        let subtype = SUBTYPES[turn % 8];
        let mut entries: Vec<_> = (0..9).flat_map(|_| entries(&mut random, &pool, subtype > 7)).collect();
        entries.truncate(turn % 40);
        let mut out = vec![0; 20_000];
        let mut builder = RibBuilder::begin(&mut out, subtype, 1, &prefix(32)).unwrap();
        entries.iter().for_each(|entry| builder.push(entry).unwrap());
        let body = builder.finish().to_vec();
        let rib = Rib::read(&body, subtype).unwrap();
        let mut again = vec![0; body.len()];
        let mut builder = RibBuilder::begin(&mut again, subtype, rib.sequence, &rib.prefix).unwrap();
        builder.extend_from(&body, rib.entries()).unwrap();
        assert_eq!(builder.finish(), body);
    }
}

#[test]
fn as_many_entries_as_a_count_can_hold_and_no_more() {
    let mut out = vec![0; 7 + 8 * 65_540];
    let mut builder = RibBuilder::begin(&mut out, 2, 1, &prefix(0)).unwrap();
    assert_eq!(builder.extend_from(&[], []), Ok(()));
    assert_eq!(builder.extend_from(&[], (0..65_530).map(|_| Entry::default())), Ok(()));
    assert_eq!(builder.extend_from(&[], vec![Entry::default(); 9]), Err(Refusal::TooLarge));
    assert_eq!((builder.count(), builder.body().len()), (65_535, 7 + 8 * 65_535));
    assert_eq!(builder.extend_from(&[], []), Ok(()));
}

/// After its first `None` an iterator may go on; it is not asked again.
#[test]
fn an_iterator_is_not_asked_after_its_end() {
    for entries in [0, 1, 15, 16, 17, 32] {
        let (mut asked, mut out) = (0, [0; 512]);
        let odd = std::iter::from_fn(|| {
            asked += 1;
            (asked != entries + 1).then(Entry::default)
        });
        let mut builder = RibBuilder::begin(&mut out, 2, 1, &prefix(0)).unwrap();
        assert_eq!(builder.extend_from(&[], odd), Ok(()));
        assert_eq!((usize::from(builder.count()), asked), (entries, entries + 1));
    }
}

#[test]
fn octets_after_the_declared_entries_are_no_entry() {
    let body = body(1, &[0; 16]);
    let rib = Rib::read(&body, 2).unwrap();
    assert_eq!((rib.count, rib.entries().count(), Entries::read(&body, 2).unwrap().count()), (1, 1, 1));
}

#[test]
fn a_record_gives_its_rib() {
    // The body would do for a peer table with no peer.
    let body = body(0, &[0]);
    let stream = crate::record(13, 2, &body);
    let record = Record::read(&stream, 0).unwrap();
    assert_eq!(record.rib(), Rib::read(&body, 2).ok());
    assert!(record.peer_index().is_none());
}

#[test]
fn a_record_of_another_type_gives_no_rib() {
    // The body would do for a RIB record of the same subtype.
    let body = [0, 0, 0, 1, 0, 0, 0, 2, 0, 0, 0, 1, 192, 0, 2, 1, 192, 0, 2, 2, 0, 5, 0, 6];
    assert!(Rib::read(&body, 5).is_ok());
    let stream = crate::record(16, 5, &body);
    assert!(Record::read(&stream, 0).unwrap().rib().is_none());
}
