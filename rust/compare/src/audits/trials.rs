//! The logs that both auditors are tried with.

use super::events::{all_kinds, few, outputs, steered};
use super::faults::{faults, At, Fault};
use super::logs::{Log, Made, Put};
use super::pairs::{pairs, Event};
use super::spots::Place;
use exos_random::Random;
use std::iter;

/// How many logs have two faults.
const TWO_FAULTS: u64 = 30;
/// How many steered logs there are, each without and with a fault.
const STEERED: usize = 20;
/// How many events the long log has: its records are no number of 16 bits.
const LONG: usize = 33_000;

/// What a log is tried for.
#[derive(Clone, Copy, Debug, PartialEq, Eq, PartialOrd, Ord)]
pub enum Sort {
    /// Nothing is wrong.
    Right,
    /// The fault of that row, at a place.
    Fault(usize, Place),
    /// The log is cut at a byte.
    CutAtByte,
    /// Noise stands behind the fault.
    Noise,
    /// Two records are at fault.
    TwoFaults,
    /// The last of very many records is at fault.
    Long,
    /// A steered log in which nothing is wrong.
    Steered,
    /// A steered log with a fault.
    SteeredFault,
}

/// A log that is tried.
pub struct Trial {
    /// What for.
    pub sort: Sort,
    /// The log.
    pub log: Log,
}

impl Trial {
    /// The log as it stands.
    pub fn made(&self) -> Made {
        self.log.made().expect("a log that can be made")
    }
}

/// All of them, by a seed for what is left to chance.
pub fn trials(seed: u64) -> Vec<Trial> {
    let mut trials = Vec::new();
    for events in [few().to_vec(), all_kinds(), outputs()] {
        trials.push(trial(Sort::Right, Log::right(events)));
    }
    trials.extend(each_fault());
    trials.extend(each_byte());
    trials.extend(with_noise(seed));
    trials.extend((0..TWO_FAULTS).map(|number| two_faults(&mut Random::new(seed, number))));
    trials.push(long());
    let steered = steered(seed).take(STEERED).zip(TWO_FAULTS..);
    trials.extend(steered.flat_map(|(events, number)| {
        let random = &mut Random::new(seed, number);
        steered_twice(random, events)
    }));
    trials
}

fn trial(sort: Sort, log: Log) -> Trial {
    Trial { sort, log }
}

/// Each fault at each place of the log of all kinds, or of the log of long
/// outputs where only that has room for it; other bytes in both.
fn each_fault() -> impl Iterator<Item = Trial> {
    let (kinds, outputs) = (all_kinds(), outputs());
    faults().enumerate().flat_map(move |(row, fault)| {
        let mut trials = at_each_place(&kinds, row, fault);
        if trials.is_empty() || fault.word == "bytes" {
            trials.extend(at_each_place(&outputs, row, fault));
        }
        trials
    })
}

/// A fault at each place; at none where there are fewer pairs that can have it
/// than places.
fn at_each_place(events: &[Event], row: usize, fault: &'static Fault) -> Vec<Trial> {
    let spots = fault.spots(&pairs(events.iter()));
    if fault.at != At::Start && spots.len() < 3 {
        return Vec::new();
    }
    let at = |place: &Place| {
        let log = Log::right(events.to_vec()).with(place.of(&spots)?, Put::Fault(fault));
        Some(trial(Sort::Fault(row, *place), log))
    };
    fault.places().iter().filter_map(at).collect()
}

/// A short log cut at every byte, but where a pair ends.
fn each_byte() -> impl Iterator<Item = Trial> {
    let records = trial(Sort::Right, Log::right(few().to_vec())).made().pieces;
    let records = records.into_iter().enumerate();
    records.flat_map(|(number, record)| {
        let at = [At::Event, At::Reply][number % 2];
        let least = usize::from(number > 0 && at == At::Event);
        (least..record.bytes.len()).map(move |bytes| {
            let log = Log::right(few().to_vec()).with(number / 2, Put::Cut(at, bytes));
            trial(Sort::CutAtByte, log)
        })
    })
}

/// Each fault that does not end its log, with noise behind it.
fn with_noise(seed: u64) -> impl Iterator<Item = Trial> {
    let rows = faults().filter(|fault| !fault.ends).zip(0..);
    rows.filter_map(move |(fault, row)| {
        let events = all_kinds();
        let places = fault.places();
        let spots = fault.spots(&pairs(events.iter()));
        let pair = places[places.len() / 2].of(&spots)?;
        let mut log = Log::right(events).with(pair, Put::Fault(fault));
        log.noise = Some(Random::new(seed, row).number());
        Some(trial(Sort::Noise, log))
    })
}

/// A fault at a place of the events that can have it: the pair, and the fault.
fn some_fault(random: &mut Random, events: &[Event]) -> (usize, &'static Fault) {
    let pairs = pairs(events.iter());
    let all: Vec<_> = faults().collect();
    loop {
        let fault = random.pick(&all);
        let place = random.pick(fault.places());
        if let Some(pair) = place.of(&fault.spots(&pairs)) {
            return (pair, fault);
        }
    }
}

/// Two faults, in records of which the first does not end the log.
fn two_faults(random: &mut Random) -> Trial {
    let events = all_kinds();
    let record = |&(pair, fault): &(usize, &Fault)| 2 * pair + usize::from(fault.at == At::Reply);
    loop {
        let mut two = [(); 2].map(|()| some_fault(random, &events));
        two.sort_by_key(record);
        let [first, second] = two;
        if record(&first) < record(&second) && !first.1.ends {
            let log = Log::right(events).with(first.0, Put::Fault(first.1));
            let log = log.with(second.0, Put::Fault(second.1));
            return trial(Sort::TwoFaults, log);
        }
    }
}

/// A log of boundaries, the last of which is answered wrongly.
fn long() -> Trial {
    let [start, _, boundary] = few();
    let boundaries = iter::repeat_n(boundary, LONG - 1);
    let events: Vec<Event> = [start].into_iter().chain(boundaries).collect();
    let fault = faults().find(|fault| fault.word == "b").expect("a fault");
    let log = Log::right(events).with(LONG - 1, Put::Fault(fault));
    trial(Sort::Long, log)
}

/// A steered log as it is, and with a fault.
fn steered_twice(random: &mut Random, events: Vec<Event>) -> [Trial; 2] {
    let (pair, fault) = some_fault(random, &events);
    let right = Log::right(events);
    let wrong = right.clone().with(pair, Put::Fault(fault));
    [
        trial(Sort::Steered, right),
        trial(Sort::SteeredFault, wrong),
    ]
}

#[cfg(test)]
mod tests {
    use super::*;

    #[test]
    fn every_log_can_be_made() {
        let trials = trials(1);
        assert!(trials.iter().all(|trial| trial.log.made().is_some()));
        assert!((250..400).contains(&trials.len()), "{}", trials.len());
    }

    #[test]
    fn what_is_put_in_is_never_what_stood_there() {
        for events in [few().to_vec(), all_kinds(), outputs()] {
            let pairs = pairs(events.iter());
            for fault in faults() {
                for row in fault.spots(&pairs) {
                    let right = match fault.at {
                        At::Reply => pairs[row].reply.record(),
                        _ => pairs[row].event.record(),
                    };
                    assert_ne!(fault.put(&pairs[row]), Some(right), "{}", fault.what);
                }
            }
        }
    }

    #[test]
    fn the_long_log_has_a_number_of_more_than_16_bits() {
        assert_eq!(long().made().expected(), "65999 b");
    }

    #[test]
    fn the_last_record_of_a_log_has_each_word() {
        let last = 2 * all_kinds().len() - 1;
        for word in ["cut", "answer", "a", "b", "bytes"] {
            let expected = format!("{last} {word}");
            let mut made = trials(1).into_iter().filter_map(|trial| trial.log.made());
            assert!(made.any(|made| made.expected() == expected), "{expected}");
        }
    }
}
