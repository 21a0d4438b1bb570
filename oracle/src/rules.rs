//! What 01 promises of every single reply, checked without a second opinion.

use crate::answers::{Answer, Counted, Counters, Event, Missing, RibTable, Rowed, Walk};
use crate::question::{Question, Reply};
use crate::subject::most_calls;

/// The rule that a reply breaks, if it breaks one.
pub fn broken(question: &Question, reply: &Reply) -> Option<&'static str> {
    match (question, reply) {
        (Question::Walk { stream, .. }, Reply::Walk(events)) => broken_by_walk(events, stream.len()),
        (Question::Step { stream, walk, .. }, Reply::Step(event, after)) => {
            broken_by_step(stream.len(), *walk, *event, *after)
        }
        (Question::Missing { counters, kind, subtype, body }, Reply::Counted(counted)) => {
            broken_by_counters(*counters, *kind, *subtype, counted.counters)
                .or_else(|| broken_by_missing(*counters, *kind, body, counted))
        }
        (_, Reply::Header(answer)) => broken_by_refusal(answer),
        (_, Reply::Frame(answer)) => broken_by_refusal(answer),
        (_, Reply::Id(answer)) => broken_by_refusal(answer),
        (_, Reply::Rib(answer)) => {
            let RibTable { prefix, bits, .. } = answer.value;
            broken_by_refusal(answer).or_else(|| broken_by_prefix(&prefix, bits))
        }
        (_, Reply::Entry(answer)) => broken_by_refusal(answer),
        (_, Reply::Dump(answer)) => broken_by_refusal(answer),
        (_, Reply::Candidate(answer)) => broken_by_refusal(answer),
        (_, Reply::RibStep(answer)) => broken_by_refusal(answer),
        _ => broken_by_lent_memory(question, reply),
    }
}

fn broken_by_lent_memory(question: &Question, reply: &Reply) -> Option<&'static str> {
    match (question, reply) {
        (Question::RibPush { buffer, .. }, Reply::Pushed(answer, after)) => {
            broken_by_refusal(answer).or_else(|| broken_by_writing(buffer, after, 0..answer.value.length))
        }
        (Question::RibPushRows { buffer, builder, .. }, Reply::Rowed(answer, after)) => {
            let Rowed { rows, builder: next } = answer.value;
            broken_by_refusal(answer)
                .or_else(|| broken_by_writing(buffer, after, 0..next.length))
                .or_else(|| broken_by_rows(answer.refusal, builder.count, rows, next.count))
        }
        (Question::PeerRead { slots, .. }, Reply::Table(answer, after)) => {
            broken_by_refusal(answer).or_else(|| broken_by_writing(slots, after, 0..answer.value.count))
        }
        (Question::PeerAdd { slots, count, .. }, Reply::Added(answer, after)) => {
            let added = answer.refusal == 0 && answer.value == *count;
            let written = if added { *count..*count + 1 } else { 0..0 };
            broken_by_refusal(answer).or_else(|| broken_by_writing(slots, after, written))
        }
        (Question::HeaderWrite { room, .. }, Reply::Written(answer, after))
        | (Question::PeerWrite { room, .. }, Reply::Written(answer, after))
        | (Question::RibBegin { room, .. }, Reply::Written(answer, after))
        | (Question::TableDumpWrite { room, .. }, Reply::Written(answer, after))
        | (Question::RibAdd { buffer: room, .. }, Reply::Written(answer, after)) => {
            // That the octets of a body before a new entry stay, but for the count, is for the crate to show.
            broken_by_refusal(answer).or_else(|| broken_by_writing(room, after, 0..answer.value))
        }
        _ => None,
    }
}

/// A refusal has 0 in every other field.
fn broken_by_refusal<T: Default + PartialEq>(answer: &Answer<T>) -> Option<&'static str> {
    let clean = answer.refusal == 0 || answer.value == T::default();
    (!clean).then_some("a refusal has values")
}

/// Bits after the prefix are cleared.
fn broken_by_prefix(prefix: &[u8; 16], bits: u8) -> Option<&'static str> {
    let all = u128::from_be_bytes(*prefix);
    let after = all.checked_shl(u32::from(bits)).unwrap_or(0);
    (after != 0).then_some("bits after the prefix are set")
}

/// Lent memory outside of what the call says it writes stays as it was. A refusal writes nothing.
fn broken_by_writing<T: PartialEq>(before: &[T], after: &[T], range: std::ops::Range<usize>) -> Option<&'static str> {
    let kept = before.len() == after.len()
        && range.end <= after.len()
        && before[..range.start] == after[..range.start]
        && before[range.end..] == after[range.end..];
    (!kept).then_some("lent memory was changed beyond what was written")
}

/// Each row is an entry more.
fn broken_by_rows(refusal: u8, before: u64, rows: usize, after: u64) -> Option<&'static str> {
    let counted = refusal != 0 || after == before + rows as u64;
    (!counted).then_some("the count is not raised by the rows")
}

/// A type changes its own counter alone, and a peer table clears both.
fn broken_by_counters(before: Counters, kind: u16, subtype: u16, after: Counters) -> Option<&'static str> {
    let kept = match (kind, subtype) {
        (13, 1) => after == Counters::default(),
        (13, _) => (after.dump_seen, after.dump) == (before.dump_seen, before.dump),
        (12, _) => (after.table_seen, after.table) == (before.table_seen, before.table),
        _ => after == before,
    };
    (!kept).then_some("a counter of another type was changed")
}

/// Counting on from the earlier number, over the missing rows and one more, comes to the one that stands in the body, and never
/// once around. A repeat goes on by none.
fn broken_by_missing(before: Counters, kind: u16, body: &[u8], counted: &Counted) -> Option<&'static str> {
    let Counted { counters: after, told: Some(Missing { missing, repeat }) } = *counted else {
        return None;
    };
    let (seen, bits, earlier, later, octets) = match kind {
        12 => (before.dump_seen && after.dump_seen, 16, before.dump.into(), after.dump.into(), body.get(2..4)),
        13 => (before.table_seen && after.table_seen, 32, before.table, after.table, body.get(..4)),
        _ => return Some("a type without sequence numbers has missing rows"),
    };
    let number = octets.map(|octets| octets.iter().fold(0, |sum, &octet| 256 * sum + u64::from(octet)));
    let (steps, numbers) = (u64::from(missing) + u64::from(!repeat), 1 << bits);
    let leads = steps < numbers && (u64::from(earlier) + steps) % numbers == later.into() && repeat == (steps == 0);
    let right = seen && leads && number == Some(later.into());
    (!right).then_some("the missing rows do not lead from the earlier number to the later")
}

/// Where the walk stands after each kind of answer.
fn broken_by_step(n: usize, before: Walk, event: Event, after: Walk) -> Option<&'static str> {
    let expected = match event {
        Event::Record { end, .. } | Event::Gap { end, .. } => Walk { position: end, finished: false },
        Event::End { .. } | Event::Window { .. } => Walk { position: before.position, finished: true },
        Event::Beyond => before,
    };
    let right = match event {
        Event::Beyond => before.position > n,
        Event::End { offset } => offset == before.position && (before.finished || offset == n),
        _ => !before.finished && before.position < n,
    };
    (after != expected || !right).then_some("the walk after the call is not as 01 says")
}

/// The five properties of a whole walk.
pub fn broken_by_walk(events: &[Event], n: usize) -> Option<&'static str> {
    if !covers(events, n) {
        return Some("records and gaps do not cover the octets once and in order");
    }
    if !confirmed_records_follow(events) {
        return Some("a gap is not followed by as many records as it reports");
    }
    if !scans_take_up_on_16_and_17(events) {
        return Some("a gap has evidence 1, or a scan took up on another type than 16 and 17");
    }
    if events.windows(2).any(|pair| pair.iter().all(|event| matches!(event, Event::Gap { .. }))) {
        return Some("two gaps touch");
    }
    let in_time = events.len() <= most_calls(n) && events.last().is_some_and(Event::is_last);
    (!in_time).then_some("the last answer did not come in time")
}

/// Each answer starts where the one before ended; the last stands at the end, or at the start of a refusal 11.
fn covers(events: &[Event], n: usize) -> bool {
    let mut at = 0;
    for event in events {
        match *event {
            Event::Record { start, end, .. } if start == at && start + 12 <= end && end <= n => at = end,
            Event::Gap { start, end, .. } if start == at && start < end && end <= n => at = end,
            Event::End { offset } => return offset == at && at == n,
            Event::Window { start, .. } => return start == at && at < n,
            _ => return false,
        }
    }
    false
}

/// A gap with k confirmed has k records after it; with none confirmed, the end.
fn confirmed_records_follow(events: &[Event]) -> bool {
    events.iter().enumerate().all(|(place, event)| {
        let Event::Gap { confirmed, .. } = *event else {
            return true;
        };
        let after = &events[place + 1..];
        if confirmed == 0 {
            return matches!(after, [Event::End { .. }]);
        }
        let following = after.get(..usize::from(confirmed));
        following.is_some_and(|events| events.iter().all(|event| matches!(event, Event::Record { .. })))
    })
}

/// Evidence 4 is a record's own end, 5 the stream's. A scan has 2 or 3, and types 16 and 17 confirm it; 1 is reserved.
fn scans_take_up_on_16_and_17(events: &[Event]) -> bool {
    events.iter().enumerate().all(|(place, event)| match *event {
        Event::Gap { evidence: 4 | 5, .. } => true,
        Event::Gap { evidence: 2 | 3, confirmed, .. } => {
            let mut confirming = events[place + 1..].iter().take(confirmed.into());
            confirming.all(|event| matches!(event, Event::Record { kind: 16 | 17, .. }))
        }
        Event::Gap { .. } => false,
        _ => true,
    })
}
