//! Walks: what each answers, and that it covers the stream whatever the damage.

use crate::{Random, keepalive, message, record, state_change};
use mrt::{Evidence, Gap, Item, Options, Record, Refusal, Walk};

fn options(window: usize, confirmations: u8) -> Options {
    Options::new().window(window).confirmations(confirmations)
}

/// The numbers of a gap, as a listing has them.
fn numbers(gap: &Gap) -> (usize, usize, u8, u8, u8) {
    (gap.start, gap.end, gap.refusal.number(), gap.evidence.number(), gap.confirmed)
}

/// The gaps of a stream that has no exhausted window.
fn gaps(stream: &[u8], options: Options) -> Vec<(usize, usize, u8, u8, u8)> {
    let items = Walk::with_options(stream, options).map(Result::unwrap);
    let gaps = items.filter_map(|item| match item {
        Item::Gap(gap) => Some(numbers(&gap)),
        Item::Record(_) => None,
    });
    gaps.collect()
}

#[test]
fn an_empty_stream_has_no_item() {
    let mut walk = Walk::new(&[]);
    assert!(!walk.is_finished());
    assert_eq!((walk.next(), walk.next()), (None, None));
    assert_eq!((walk.position(), walk.is_finished()), (0, true));
}

#[test]
fn a_window_decides_between_a_gap_and_its_exhaustion() {
    for (n, window) in [(7, 0), (7, 1), (1, 0)] {
        let zeros = vec![0; n];
        let mut walk = Walk::with_options(&zeros, options(window, 3));
        let exhausted = walk.next().unwrap().unwrap_err();
        assert_eq!((exhausted.start, exhausted.window, exhausted.refusal), (0, window, Refusal::TruncatedHeader));
        assert_eq!(Refusal::from(exhausted).number(), 11);
        assert_eq!((walk.next(), walk.next(), walk.position(), walk.is_finished()), (None, None, 0, true));
    }
    assert_eq!(gaps(&[0; 6], options(1, 3)), [(0, 6, 1, 5, 0)]);
    assert_eq!(gaps(&[0; 6], options(usize::MAX, 255)), [(0, 6, 1, 5, 0)]);
}

#[test]
fn a_walk_from_an_offset_on() {
    let stream = [state_change(), vec![0; 3]].concat();
    assert_eq!(Walk::starting_at(&stream, 36, Options::new()).unwrap_err(), Refusal::Beyond);
    assert_eq!(Walk::starting_at(&stream, 35, Options::new()).unwrap().next(), None);
    let mut walk = Walk::starting_at(&stream, 32, Options::new()).unwrap();
    assert!(matches!(walk.next(), Some(Ok(Item::Gap(Gap { start: 32, end: 35, .. })))));
    assert_eq!((walk.position(), walk.is_finished(), walk.next(), walk.is_finished()), (35, false, None, true));
}

#[test]
fn the_position_is_where_the_next_item_starts() {
    let stream = [state_change().repeat(40), vec![0; 3], state_change().repeat(2)].concat();
    let mut walk = Walk::new(&stream);
    while let Some(Ok(item)) = walk.next() {
        let end = match item {
            Item::Record(record) => record.end,
            Item::Gap(gap) => gap.end,
        };
        assert_eq!((walk.position(), walk.is_finished()), (end, false));
        let again = Walk::starting_at(&stream, end, Options::new()).unwrap();
        assert!(walk.clone().eq(again));
    }
    assert_eq!((walk.position(), walk.is_finished()), (stream.len(), true));
}

#[test]
fn a_scan_asks_for_a_chain() {
    let two = [vec![255; 20], state_change(), state_change()].concat();
    assert_eq!(gaps(&two, options(100, 3)), [(0, 84, 2, 5, 0)]);
    assert_eq!(gaps(&two, options(100, 2)), [(0, 20, 2, 3, 2)]);
    assert_eq!(gaps(&two, options(100, 0)), [(0, 20, 2, 3, 1)]);
    let mixed = [vec![255; 20], keepalive(0, 19), state_change()].concat();
    assert_eq!(gaps(&mixed, options(100, 2)), [(0, 20, 2, 2, 2)]);
}

fn legacy() -> Vec<u8> {
    record(5, 7, &[0; 12])
}

#[test]
fn a_scan_passes_over_type_5_records() {
    let lost = [vec![255; 20], legacy().repeat(3)].concat();
    assert_eq!(gaps(&lost, options(200, 1)), [(0, 92, 2, 5, 0)]);
    let exhausted = Walk::with_options(&lost, options(50, 1)).next().unwrap().unwrap_err();
    assert_eq!((exhausted.start, exhausted.refusal), (0, Refusal::UnknownType));
    let found = [lost, keepalive(0, 19), keepalive(0, 19)].concat();
    assert_eq!(gaps(&found, options(200, 2)), [(0, 92, 2, 2, 2)]);
}

#[test]
fn a_type_5_record_breaks_a_chain() {
    let broken = [vec![255; 20], state_change(), legacy(), state_change(), state_change()].concat();
    assert_eq!(gaps(&broken, options(200, 2)), [(0, 76, 2, 3, 2)]);
    assert_eq!(gaps(&broken, options(200, 1)), [(0, 20, 2, 3, 1)]);
}

#[test]
fn type_5_records_are_walked_and_confirm_an_own_end() {
    assert_eq!(gaps(&legacy().repeat(3), options(200, 2)), []);
    let refused = [record(13, 1, &[0; 7]), legacy().repeat(3)].concat();
    assert_eq!(gaps(&refused, options(200, 2)), [(0, 19, 7, 4, 2)]);
}

#[test]
fn a_framed_record_that_is_refused_is_skipped_alone() {
    let stream = [state_change(), record(13, 1, &[0; 7]), state_change()].concat();
    assert_eq!(gaps(&stream, Options::new()), [(32, 51, 7, 4, 1)]);
    assert_eq!(gaps(&stream[..51], Options::new()), [(32, 51, 7, 4, 0)]);
}

#[test]
fn an_open_of_28_octets_is_refused_and_no_scan_takes_it_up() {
    let (short, open) = (message(0, 1, 28), message(0, 1, 29));
    assert_eq!(gaps(&[&short[..], &open].concat(), options(200, 1)), [(0, 60, 7, 4, 1)]);
    assert_eq!(gaps(&[&[255; 12][..], &short, &open].concat(), options(200, 1)), [(0, 72, 2, 2, 1)]);
}

/// Complete, with a length that leaves no room for microseconds, and cut before them.
#[test]
fn types_33_and_49_have_microseconds_in_a_walk() {
    for kind in [33, 49] {
        let next = state_change();
        let complete = [record(kind, 0, &[0; 4]), next.clone()].concat();
        assert_eq!(gaps(&complete, options(200, 1)), [(0, 16, 5, 4, 1)]);
        for wire in 0..4 {
            let short = [record(kind, 0, &vec![0; wire]), next.clone()].concat();
            assert_eq!(gaps(&short, options(200, 1)), [(0, 12 + wire, 3, 3, 1)]);
        }
        for left in 12..16 {
            let cut = [&next, &record(kind, 0, &[0; 4])[..left]].concat();
            assert_eq!(gaps(&cut, options(200, 1)), [(32, 32 + left, 1, 5, 0)]);
        }
    }
}

#[test]
fn table_dumps_confirm_an_own_end_and_no_scan() {
    let dumps = [record(12, 1, &[0; 22]), record(12, 2, &[0; 46])].concat();
    let n = 12 + dumps.len();
    assert_eq!(gaps(&dumps, options(200, 2)), []);
    let refused = [record(12, 3, &[]), dumps.clone()].concat();
    assert_eq!(gaps(&refused, options(200, 2)), [(0, 12, 6, 4, 2)]);
    let lost = [vec![255; 12], dumps].concat();
    assert_eq!(gaps(&lost, options(200, 2)), [(0, n, 2, 5, 0)]);
    let found = [lost, state_change().repeat(2)].concat();
    assert_eq!(gaps(&found, options(200, 2)), [(0, n, 2, 3, 2)]);
}

/// Whether so many records, or the end where that is none, follow.
fn confirmed(gap: &Gap, after: &[Item<'_>]) -> bool {
    let records = after.iter().take(gap.confirmed.into()).filter(|item| matches!(item, Item::Record(_))).count();
    records == usize::from(gap.confirmed) && (gap.confirmed > 0 || after.is_empty())
}

/// What is promised of a whole walk.
fn keeps_its_promises(stream: &[u8], options: Options) {
    let answers: Vec<_> = Walk::with_options(stream, options).collect();
    assert!(answers.len() <= 2 * (stream.len() / 12) + 2);
    let items: Vec<_> = answers.iter().map_while(|answer| answer.ok()).collect();
    let mut at = 0;
    for (i, item) in items.iter().enumerate() {
        let (start, end) = match item {
            Item::Record(record) => (record.start, record.end),
            Item::Gap(gap) => (gap.start, gap.end),
        };
        assert!(start == at && start < end);
        at = end;
        match item {
            Item::Record(record) => assert_eq!(Record::read(stream, start), Ok(*record)),
            Item::Gap(gap) => assert!(confirmed(gap, &items[i + 1..])),
        }
    }
    match answers.get(items.len()) {
        Some(last) => assert_eq!((last.unwrap_err().start, answers.len()), (at, items.len() + 1)),
        None => assert_eq!(at, stream.len()),
    }
}

/// A stream of a few records of every kind that is carried, and one that is not.
fn intact(random: &mut Random) -> Vec<u8> {
    let kinds = [
        state_change(),
        keepalive(0, 19),
        keepalive(1_000_000, 19),
        record(5, 7, &[0; 12]),
        record(13, 1, &[0; 8]),
        record(13, 2, &[0; 7]),
        record(12, 1, &[0; 22]),
        record(11, 1, &[0; 9]),
    ];
    (0..random.below(12)).flat_map(|_| kinds[random.below(8)].clone()).collect()
}

/// Octets are turned over, left out, put in, or cut off at the end.
fn damage(random: &mut Random, stream: &mut Vec<u8>) {
    let at = random.below(stream.len());
    let end = (at + random.below(24)).min(stream.len());
    match random.below(4) {
        0 => stream[at..end].iter_mut().for_each(|octet| *octet ^= random.next() as u8),
        1 => drop(stream.drain(at..end)),
        2 => drop(stream.splice(at..at, random.octets(9))),
        _ => stream.truncate(at),
    }
}

#[test]
fn a_walk_keeps_its_promises_whatever_the_damage() {
    let mut random = Random(3);
    for turn in 0..20_000 {
        let mut stream = intact(&mut random);
        (0..turn % 4).for_each(|_| damage(&mut random, &mut stream));
        let window = [0, 1, 7, 64, 1_048_576, usize::MAX][random.below(6)];
        let asked = [0, 1, 2, 3, 255][random.below(5)];
        keeps_its_promises(&stream, options(window, asked));
    }
}

#[test]
fn octets_of_any_kind_are_walked_over() {
    let mut random = Random(4);
    for n in 0..600 {
        let octets = random.octets(n);
        keeps_its_promises(&octets, options(n / 2, 1));
    }
}

#[test]
fn an_answer_has_words() {
    let stream = [state_change(), record(13, 1, &[0; 7]), state_change()].concat();
    let Some(Ok(Item::Gap(gap))) = Walk::new(&stream).nth(1) else { panic!("no gap") };
    let said = "32 to 51: the body does not meet its check; ends at the refused record's own end, 1 confirmed";
    assert_eq!((gap.to_string().as_str(), gap.evidence), (said, Evidence::OwnEnd));
    let exhausted = Walk::with_options(&[0; 7], options(0, 1)).next().unwrap().unwrap_err();
    let said = "at 0 the header runs past the stream, and no record to go on from was found within 0 octets";
    assert_eq!(exhausted.to_string(), said);
}
