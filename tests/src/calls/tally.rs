//! How often each call was compared, with which refusals and on which kinds of inputs.

use std::collections::BTreeMap;
use std::fmt;

#[derive(Default)]
pub struct Tally {
    pub comparisons: usize,
    rows: BTreeMap<(&'static str, u64), usize>,
    pub kinds: BTreeMap<(&'static str, &'static str), usize>,
}

/// A call and the refusal numbers that concern it.
pub type Rows = (&'static str, &'static [u64]);

impl Tally {
    pub fn count(&mut self, call: &'static str, kind: &'static str, number: u64) {
        self.comparisons += 1;
        *self.rows.entry((call, number)).or_default() += 1;
        *self.kinds.entry((call, kind)).or_default() += 1;
    }

    fn reached(&self, call: &'static str, number: u64) -> usize {
        self.rows.get(&(call, number)).copied().unwrap_or(0)
    }

    /// What no comparison has reached: a call's refusal, or that it is done (0).
    pub fn never_reached(&self, table: &[Rows]) -> Vec<(&'static str, u64)> {
        let all = table.iter().flat_map(|(call, rows)| [0].iter().chain(*rows).map(|&number| (*call, number)));
        all.filter(|&(call, number)| self.reached(call, number) == 0).collect()
    }

    pub fn table<'a>(&'a self, calls: &'a [Rows]) -> impl fmt::Display + 'a {
        Table { tally: self, calls }
    }
}

struct Table<'a> {
    tally: &'a Tally,
    calls: &'a [Rows],
}

const LAST_ROW: u64 = 11;

impl fmt::Display for Table<'_> {
    fn fmt(&self, to: &mut fmt::Formatter) -> fmt::Result {
        write!(to, "{:<13} {:>9} {:>8}", "call", "compared", "done")?;
        (1..=LAST_ROW).try_for_each(|row| write!(to, " {row:>7}"))?;
        for (call, rows) in self.calls {
            let all: usize = (0..=LAST_ROW).map(|row| self.tally.reached(call, row)).sum();
            write!(to, "\n{call:<13} {all:>9} {:>8}", self.tally.reached(call, 0))?;
            for row in 1..=LAST_ROW {
                let cell = if rows.contains(&row) { self.tally.reached(call, row).to_string() } else { "-".into() };
                write!(to, " {cell:>7}")?;
            }
        }
        write!(to, "\n{:<13} {:>9}", "all", self.tally.comparisons)
    }
}
