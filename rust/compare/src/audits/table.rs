//! How many logs were tried for what.

use super::faults::faults;
use super::spots::PLACES;
use super::trials::Sort;
use std::collections::BTreeMap;
use std::fmt::{self, Display, Formatter};

/// The sorts beside the faults, in words.
const SORTS: [(Sort, &str); 7] = [
    (Sort::Right, "nothing wrong"),
    (Sort::CutAtByte, "a short log cut at every byte"),
    (Sort::Noise, "noise behind the first fault"),
    (Sort::TwoFaults, "two faults"),
    (Sort::Long, "a fault behind more than 65,536 records"),
    (Sort::Steered, "a steered log, nothing wrong"),
    (Sort::SteeredFault, "a steered log with a fault"),
];

/// How many logs were tried of each sort.
#[derive(Default)]
pub struct Table {
    counts: BTreeMap<Sort, u64>,
}

impl Table {
    /// Counts a log.
    pub(super) fn add(&mut self, sort: Sort) {
        *self.counts.entry(sort).or_default() += 1;
    }

    /// Adds the counts of another table.
    pub(super) fn join(&mut self, other: &Table) {
        for (sort, count) in &other.counts {
            *self.counts.entry(*sort).or_default() += count;
        }
    }

    /// How many logs.
    pub fn logs(&self) -> u64 {
        self.counts.values().sum()
    }

    /// Each word, fault and place, and each other sort, of which there was no log.
    pub fn missing(&self) -> Vec<String> {
        let rows = faults().enumerate().flat_map(|(row, fault)| {
            let places = fault.places().iter();
            places.map(move |place| {
                let words = format!("{}, {}: {place:?}", fault.word, fault.what);
                (Sort::Fault(row, *place), words)
            })
        });
        let others = SORTS.map(|(sort, words)| (sort, words.to_string()));
        let all = rows.chain(others);
        let missing = all.filter(|(sort, _)| self.count(*sort) == 0);
        missing.map(|(_, words)| words).collect()
    }

    fn count(&self, sort: Sort) -> u64 {
        self.counts.get(&sort).copied().unwrap_or(0)
    }
}

impl Display for Table {
    fn fmt(&self, to: &mut Formatter<'_>) -> fmt::Result {
        writeln!(to, "  start   first  middle    last  put in")?;
        for (row, fault) in faults().enumerate() {
            let [start, first, middle, last] =
                PLACES.map(|place| self.count(Sort::Fault(row, place)));
            write!(to, "{start:>7} {first:>7} {middle:>7} {last:>7}")?;
            writeln!(to, "  {}: {}", fault.word, fault.what)?;
        }
        for (sort, words) in SORTS {
            writeln!(to, "{:>31}  {words}", self.count(sort))?;
        }
        Ok(())
    }
}
