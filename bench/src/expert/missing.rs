//! Missing rows, by sequence numbers.

use super::{be16, be32};

/// The last number of type 13 and of type 12.
#[derive(Default)]
pub struct Counters {
    table: Option<u32>,
    dump: Option<u16>,
}

impl Counters {
    /// Counters from their four places: for each type whether there is a number, and the number.
    #[inline(always)]
    pub fn at([table_seen, table, dump_seen, dump]: [u64; 4]) -> Self {
        Counters { table: (table_seen == 1).then_some(table as u32), dump: (dump_seen == 1).then_some(dump as u16) }
    }

    #[inline(always)]
    pub fn places(&self) -> [u64; 4] {
        let (table, dump) = (self.table.map_or(0, u64::from), self.dump.map_or(0, u64::from));
        [self.table.is_some().into(), table, self.dump.is_some().into(), dump]
    }

    /// How many rows are missing before a record, and whether it repeats a number.
    #[inline(always)]
    pub fn count(&mut self, kind: u16, subtype: u16, body: &[u8]) -> Option<(u32, bool)> {
        match (kind, subtype) {
            (13, 2..=5 | 8..=11) if body.len() >= 4 => {
                let number = be32(body, 0);
                self.table.replace(number).map(|before| between(number.wrapping_sub(before)))
            }
            (12, _) if body.len() >= 4 => {
                let number = be16(body, 2);
                self.dump.replace(number).map(|before| between(number.wrapping_sub(before).into()))
            }
            (13, 1) => {
                *self = Counters::default();
                None
            }
            _ => None,
        }
    }
}

/// By the difference of two numbers.
#[inline(always)]
fn between(difference: u32) -> (u32, bool) {
    (difference.saturating_sub(1), difference == 0)
}

/// 1, the missing rows and 1 for a repeat, or zeros.
#[inline(always)]
pub fn values(told: Option<(u32, bool)>) -> [u64; 3] {
    told.map_or([0; 3], |(missing, repeat)| [1, missing.into(), repeat.into()])
}
