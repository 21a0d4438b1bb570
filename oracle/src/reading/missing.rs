//! Rows missing between a record and the last one of its MRT type, by their sequence numbers (02, wish 5).

use super::octets::{be16, be32};
use crate::answers::{Counted, Counters, Missing};

/// A record counted. A peer table starts all counts afresh; what is no row, or too short for its number, changes nothing.
pub fn count_missing(before: Counters, kind: u16, subtype: u16, body: &[u8]) -> Counted {
    match (kind, subtype) {
        (13, 1) => Counted::default(),
        (13, 2..=5 | 8..=11) if body.len() >= 4 => {
            let table = be32(body, 0);
            let told = before.table_seen.then(|| between(table.wrapping_sub(before.table)));
            Counted { counters: Counters { table_seen: true, table, ..before }, told }
        }
        // The view stands before the number.
        (12, _) if body.len() >= 4 => {
            let dump = be16(body, 2);
            let told = before.dump_seen.then(|| between(dump.wrapping_sub(before.dump).into()));
            Counted { counters: Counters { dump_seen: true, dump, ..before }, told }
        }
        _ => Counted { counters: before, told: None },
    }
}

/// By the later number less the earlier, which turns over at the counter's width.
fn between(difference: u32) -> Missing {
    match difference {
        0 => Missing { missing: 0, repeat: true },
        _ => Missing { missing: difference - 1, repeat: false },
    }
}
