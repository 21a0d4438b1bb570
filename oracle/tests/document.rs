//! Document 01, "Both sides of each line", and its example of a listing, asked of the reading and of the crate.

use mrt_oracle::answers::{Event, Peer};
use mrt_oracle::make;
use mrt_oracle::oracle::Oracle;
use mrt_oracle::rules;
use mrt_oracle::subject::{Reading, Subject};

const BOTH: [&dyn Subject; 2] = [&Reading, &Oracle];

fn walk(subject: &dyn Subject, stream: &[u8], window: usize, asked: u8) -> Vec<Event> {
    subject.walk(stream, window, asked).expect("every subject walks")
}

fn refusal(subject: &dyn Subject, stream: &[u8]) -> u8 {
    subject.judge(stream, 0).expect("every subject judges").refusal
}

#[test]
fn the_listing_of_the_example() {
    let first = make::record(16, 0, &make::state_change_body(0, 1));
    let stream = [first.clone(), make::record(13, 1, &[0; 7]), first].concat();
    for subject in BOTH {
        let lines: Vec<String> = walk(subject, &stream, 1 << 20, 3).iter().map(Event::line).collect();
        assert_eq!(lines, ["R\t0\t32\t16\t0", "G\t32\t51\t7\t4\t1", "R\t51\t83\t16\t0", "E\t83"]);
    }
}

#[test]
fn headers_on_both_sides() {
    for subject in BOTH {
        let read = |stream: &[u8]| subject.header_read(stream, 0).expect("every subject reads headers");
        assert_eq!(read(&[0; 11]).refusal, 1);
        assert_eq!(read(&[0; 12]).refusal, 0);
        let mut timed = make::header(0, 17, 0, 3);
        timed.extend([0; 4]);
        assert_eq!(read(&timed).refusal, 3);
        timed[11] = 4;
        assert_eq!(read(&timed[..15]).refusal, 1);
        assert_eq!((read(&timed).refusal, read(&timed).value.stored), (0, 0));
    }
}

/// Document 02, wish 1. The crate has no answer to this: it reads both types without microseconds.
#[test]
fn types_33_and_49_have_microseconds() {
    let state = make::record(16, 0, &make::state_change_body(0, 1));
    for kind in [33, 49] {
        let lines = |stream: &[u8]| walk(&Reading, stream, 1 << 20, 1).iter().map(Event::line).collect::<Vec<_>>();
        let whole = [make::timed_record(kind, 0, 1_000_000, &[7]), state.clone()].concat();
        let header = Reading.header_read(&whole, 0).expect("the reading answers all").value;
        assert_eq!((header.wire, header.stored, header.micros), (5, 1, 1_000_000));
        assert_eq!(lines(&whole), ["G\t0\t17\t5\t4\t1", "R\t17\t49\t16\t0", "E\t49"]);
        let short = [make::header(0, kind, 0, 3), vec![0; 3], state.clone()].concat();
        assert_eq!(lines(&short), ["G\t0\t15\t3\t3\t1", "R\t15\t47\t16\t0", "E\t47"]);
        let cut = [state.clone(), make::header(0, kind, 0, 4), vec![0; 3]].concat();
        assert_eq!(lines(&cut), ["R\t0\t32\t16\t0", "G\t32\t47\t1\t5\t0", "E\t47"]);
    }
}

#[test]
fn peer_tables_on_both_sides() {
    for subject in BOTH {
        let read = |body: &[u8]| subject.peer_read(body, &mut [Peer::default()]).expect("there is a slot");
        assert_eq!(read(&[0; 7]).refusal, 7);
        assert_eq!((read(&[0; 8]).refusal, read(&[0; 8]).value.count), (0, 0));
    }
}

#[test]
fn rib_bodies_on_both_sides() {
    for subject in BOTH {
        let read = |body: &[u8]| subject.rib_read(2, body).expect("every subject reads RIB bodies");
        assert_eq!(read(&make::rib_head(0, 32, 10, 0)).refusal, 0);
        assert_eq!(read(&make::rib_head(0, 33, 10, 0)).refusal, 7);
        let body = [make::rib_head(0, 8, 10, 2), make::rib_entry(2, 0, &[])].concat();
        let answer = read(&body);
        assert_eq!((answer.refusal, answer.value.declared, answer.value.read), (0, 2, 1));
    }
}

#[test]
fn messages_on_both_sides() {
    for subject in BOTH {
        let judged = |kind, length| refusal(subject, &make::record(16, 1, &make::message_body(1, 1, kind, length)));
        assert_eq!((judged(4, 19), judged(4, 20)), (0, 7));
        assert_eq!([19, 28, 29, 4_096, 4_097].map(|length| judged(1, length)), [7, 7, 0, 0, 7]);
        let longest = make::message_body(4, 2, 2, 65_535);
        assert_eq!((longest.len(), refusal(subject, &make::record(16, 4, &longest))), (65_579, 0));
    }
}

#[test]
fn state_changes_on_both_sides() {
    for subject in BOTH {
        let mut body = make::state_change_body(0, 1);
        assert_eq!((body.len(), refusal(subject, &make::record(16, 0, &body))), (20, 0));
        body.push(0);
        assert_eq!(refusal(subject, &make::record(16, 0, &body)), 7);
    }
}

#[test]
fn table_dumps_on_both_sides() {
    for subject in BOTH {
        let judged = |subtype, body: &[u8]| refusal(subject, &make::record(12, subtype, body));
        for (subtype, most, shortest) in [(1, 32, 22), (2, 128, 46)] {
            let bits = |bits| judged(subtype, &make::table_dump(subtype, bits, &[]));
            assert_eq!((bits(most), bits(most + 1)), (0, 7));
            let zeros = |length| judged(subtype, &vec![0; length]);
            assert_eq!((zeros(shortest - 1), zeros(shortest), zeros(shortest + 1)), (7, 0, 7));
        }
        let body = make::table_dump(1, 24, &[]);
        assert_eq!([0, 1, 2, 3, 65_535].map(|subtype| judged(subtype, &body)), [6, 0, 7, 6, 6]);
        let cut = make::record(12, 3, &body);
        assert_eq!((refusal(subject, &cut[..cut.len() - 1]), refusal(subject, &cut)), (4, 6));
    }
}

#[test]
fn table_dumps_are_walked_and_confirm_but_no_scan_stops_there() {
    let dump = make::record(12, 1, &make::table_dump(1, 24, &[7]));
    let wide = make::record(12, 2, &make::table_dump(2, 64, &[]));
    let refused = make::record(12, 1, &make::table_dump(1, 33, &[]));
    for subject in BOTH {
        let lines = |stream: &[u8]| walk(subject, stream, 1 << 20, 2).iter().map(Event::line).collect::<Vec<_>>();
        let own_end = [&refused[..], &dump, &wide].concat();
        assert_eq!(lines(&own_end), ["G\t0\t34\t7\t4\t2", "R\t34\t69\t12\t1", "R\t69\t127\t12\t2", "E\t127"]);
        let torn = [&[255; 5][..], &dump, &wide].concat();
        assert_eq!(lines(&torn), ["G\t0\t98\t2\t5\t0", "E\t98"]);
        assert!(!subject.candidate(&dump, 0).expect("every subject tests candidates").value.stands);
    }
}

/// Document 02, wish 14.
#[test]
fn type_5_is_walked_and_confirms_but_no_scan_stops_there() {
    let legacy = make::record(5, 3, &[0; 10]).repeat(3);
    let state = make::record(16, 0, &make::state_change_body(0, 1));
    let torn = [255; 5];
    for subject in BOTH {
        let first = |parts: &[&[u8]], asked| walk(subject, &parts.concat(), 1 << 20, asked)[0];
        for asked in 1..=3 {
            let gap = |end, refusal, evidence, confirmed| Event::Gap { start: 0, end, refusal, evidence, confirmed };
            assert_eq!(walk(subject, &legacy, 1 << 20, asked).len(), 4);
            assert_eq!(first(&[&legacy], asked), Event::Record { start: 0, end: 22, kind: 5, subtype: 3 });
            assert_eq!(first(&[&make::header(0, 32, 0, 0), &legacy], asked), gap(12, 5, 4, asked));
            assert_eq!(first(&[&torn, &legacy], asked), gap(71, 2, 5, 0));
            assert_eq!(first(&[&torn, &legacy, &state.repeat(3)], asked), gap(71, 2, 3, asked));
            let (end, evidence, confirmed) = if asked == 1 { (5, 3, 1) } else { (135, 5, 0) };
            assert_eq!(first(&[&torn, &state, &legacy, &state], asked), gap(end, 2, evidence, confirmed));
        }
        assert!(!subject.candidate(&legacy, 0).expect("every subject tests candidates").value.stands);
    }
}

#[test]
fn a_walk_with_evidence_1_breaks_a_rule() {
    let broken = |evidence, kind| {
        let gap = Event::Gap { start: 0, end: 5, refusal: 2, evidence, confirmed: 1 };
        let record = Event::Record { start: 5, end: 37, kind, subtype: 0 };
        rules::broken_by_walk(&[gap, record, Event::End { offset: 37 }], 37).is_some()
    };
    assert_eq!([0, 1, 2, 3, 4].map(|evidence| broken(evidence, 16)), [true, true, false, false, false]);
    assert_eq!([1, 2, 3, 4].map(|evidence| broken(evidence, 5)), [true, true, true, false]);
}

#[test]
fn no_walk_hands_out_an_open_of_28_octets_and_no_scan_stops_there() {
    let open = make::record(16, 1, &make::message_body(1, 1, 1, 29));
    let short = make::record(16, 1, &make::message_body(1, 1, 1, 28));
    for subject in BOTH {
        let lines = |stream: &[u8]| walk(subject, stream, 1 << 20, 1).iter().map(Event::line).collect::<Vec<_>>();
        let own_end = [&short[..], &open].concat();
        assert_eq!(lines(&own_end), ["G\t0\t56\t7\t4\t1", "R\t56\t113\t16\t1", "E\t113"]);
        let torn = [&[255; 5][..], &short, &open].concat();
        assert_eq!(lines(&torn), ["G\t0\t61\t2\t2\t1", "R\t61\t118\t16\t1", "E\t118"]);
    }
}

#[test]
fn microseconds_of_a_candidate() {
    for subject in BOTH {
        for (micros, stands) in [(999_999, true), (1_000_000, false)] {
            let record = make::timed_record(17, 0, micros, &make::state_change_body(0, 1));
            assert_eq!(subject.candidate(&record, 0).expect("every subject tests candidates").value.stands, stands);
            assert!(matches!(walk(subject, &record, 1, 1)[0], Event::Record { .. }));
        }
    }
}

#[test]
fn windows_on_both_sides() {
    for subject in BOTH {
        let first = |stream: &[u8], window| walk(subject, stream, window, 3)[0];
        assert_eq!(first(&[0; 7], 0), Event::Window { start: 0, window: 0, refusal: 1 });
        assert_eq!(first(&[0; 7], 1), Event::Window { start: 0, window: 1, refusal: 1 });
        let gap = Event::Gap { start: 0, end: 6, refusal: 1, evidence: 5, confirmed: 0 };
        assert_eq!(first(&[0; 6], 1), gap);
        let last = make::record(13, 1, &[0; 7]);
        let gap = Event::Gap { start: 0, end: 19, refusal: 7, evidence: 4, confirmed: 0 };
        assert_eq!(first(&last, 1), gap);
    }
}
