//! Rows of values that the library hands out many at a time, for iterators that hand them out one by one.

/// Rows that are held: those from `next` on, below `held`.
#[derive(Debug, Clone)]
pub(crate) struct Rows<const VALUES: usize, const MOST: usize> {
    rows: [[u64; VALUES]; MOST],
    next: usize,
    held: usize,
}

impl<const VALUES: usize, const MOST: usize> Rows<VALUES, MOST> {
    pub(crate) const fn new() -> Self {
        Rows { rows: [[0; VALUES]; MOST], next: 0, held: 0 }
    }

    /// How many are held.
    pub(crate) const fn len(&self) -> usize {
        self.held.saturating_sub(self.next)
    }

    /// The next row. Where none is held, `ask` is lent the places for more and says how many it has filled.
    pub(crate) fn next(&mut self, ask: impl FnOnce(&mut [[u64; VALUES]]) -> usize) -> Option<[u64; VALUES]> {
        if self.len() == 0 {
            (self.next, self.held) = (0, ask(&mut self.rows));
        }
        let row = self.rows.get(..self.held)?.get(self.next).copied()?;
        self.next = self.next.saturating_add(1);
        Some(row)
    }
}
