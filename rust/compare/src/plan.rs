//! What a case is about, by its number.

use crate::again::AGAIN;
use crate::closes_and_links::CLOSES_AND_LINKS;
use crate::protocol::Case;
use crate::steer::{Mood, MOODS};
use exos_kernel::ROWS_OF_SEGMENTS;
use exos_random::Random;
use exos_sentences::{Change, BROKEN, KEPT};

/// What a case is about.
#[derive(Clone, Copy)]
pub enum Plan {
    /// Every kind of call on tables that keep or break one sentence.
    Sentence(&'static Change),
    /// Modules that leave nothing to chance.
    Modules,
    /// Reads that leave nothing to chance.
    Reads,
    /// The same on the longest line.
    FarReads,
    /// Opens that are closed again at once, which leave nothing to chance.
    Again(fn() -> Case),
    /// Closes and links that leave nothing to chance.
    ClosesAndLinks(fn() -> Case),
    /// Requests to the writer that leave nothing to chance.
    Writers,
    /// A log of so many segments, whose line comes to fill them.
    LongLine(usize),
    /// A log that comes to use every row of channels.
    ManyChannels,
    /// A log about anything.
    Log,
    /// A log with damaged records.
    DamagedLog,
    /// A few calls on tables that may not be good.
    DamagedTables,
    /// Lists for the writer.
    Lists,
    /// Modules that are written and loaded, and loaded and written.
    ThereAndBack,
    /// A few calls with RAM of a wrong length.
    WrongLength,
}

/// The case of the first sentence: after some logs, since a difference that
/// comes of a log reads more easily.
const FIRST_SENTENCE: u64 = 100;

/// What the case of a number is about. Of a hundred cases most are damaged
/// tables, which take few calls each, so that most calls are those of logs;
/// after the first hundred come the sentences, the modules, the writer, the reads,
/// the opens that are closed again, and the closes and links.
pub fn plan(number: u64) -> Plan {
    planned(number).unwrap_or_else(|| plan_in_hundred(number))
}

/// The cases in which nothing is left to chance.
fn planned(number: u64) -> Option<Plan> {
    let row = number.checked_sub(FIRST_SENTENCE)?;
    let sentences = BROKEN.iter().chain(KEPT).map(Plan::Sentence);
    let fixed = [Plan::Modules, Plan::Writers, Plan::Reads, Plan::FarReads];
    let again = AGAIN.into_iter().map(Plan::Again);
    let closes_and_links = CLOSES_AND_LINKS.into_iter().map(Plan::ClosesAndLinks);
    let mut planned = sentences.chain(fixed).chain(again).chain(closes_and_links);
    planned.nth(row as usize)
}

fn plan_in_hundred(number: u64) -> Plan {
    match number % 100 {
        0 => Plan::LongLine(some_segments(number)),
        1 => Plan::ManyChannels,
        2..=11 => Plan::Log,
        12..=14 => Plan::DamagedLog,
        15..=84 => Plan::DamagedTables,
        85..=87 => Plan::Lists,
        88 | 89 => Plan::ThereAndBack,
        _ => Plan::WrongLength,
    }
}

/// Each of 2 to 32 once in 31 numbers, hundreds too.
fn some_segments(number: u64) -> usize {
    2 + number as usize % (ROWS_OF_SEGMENTS - 1)
}

impl Plan {
    /// What its calls are mostly about.
    pub fn mood(self, random: &mut Random) -> Mood {
        match self {
            Plan::LongLine(_) => Mood::Line,
            Plan::ManyChannels => Mood::Rows,
            _ => random.pick(&MOODS),
        }
    }

    /// How many segments: mostly few, since every byte of them is compared
    /// after every call.
    pub fn segments(self, random: &mut Random) -> usize {
        match (self, random.below(40)) {
            (Plan::LongLine(segments), _) => segments,
            (Plan::Log | Plan::DamagedLog, 0..=4) => 2 + random.below(7),
            (_, 0) => ROWS_OF_SEGMENTS,
            _ => 2 + random.below(3),
        }
    }

    /// How many calls come before the tables are damaged.
    pub fn calls_before(self, random: &mut Random) -> usize {
        match self {
            Plan::DamagedTables => random.below(50),
            _ => 0,
        }
    }

    /// How many calls.
    pub fn calls(self, random: &mut Random) -> usize {
        match self {
            Plan::LongLine(_) => 50 + random.below(30),
            Plan::Log | Plan::DamagedLog | Plan::ManyChannels => 60 + random.below(140),
            _ => 1 + random.below(4),
        }
    }

    /// One call in how many is damaged.
    pub fn damaged_one_in(self) -> usize {
        match self {
            Plan::DamagedLog => 4,
            _ => 60,
        }
    }

    /// One call in how many is a start, beside those of the mood.
    pub fn start_one_in(self) -> usize {
        match self {
            Plan::DamagedTables | Plan::WrongLength => 6,
            _ => 1_000,
        }
    }
}

#[cfg(test)]
mod tests {
    use super::*;
    use std::collections::BTreeSet;

    #[test]
    fn every_number_of_segments_comes_within_31_hundreds() {
        let segments: BTreeSet<_> = (10..41)
            .map(|hundred| some_segments(100 * hundred))
            .collect();
        assert_eq!(segments, (2..=32).collect());
    }

    #[test]
    fn every_sentence_comes() {
        let count = (0..5_000).filter_map(planned).count();
        let fixed = 4 + AGAIN.len() + CLOSES_AND_LINKS.len();
        assert_eq!(count, BROKEN.len() + KEPT.len() + fixed);
    }
}
