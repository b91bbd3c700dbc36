//! A maker's log while it is made: events, what is put into their records, and
//! the verdict that this asks for.

use super::faults::{At, Fault};
use super::pairs::{pairs, Event, Pair};
use exos_random::Random;

/// A log to make.
#[derive(Clone)]
pub struct Log {
    /// The events from first to last.
    pub steps: Vec<Step>,
    /// The seed of noise, which stands behind the first fault in the place of all
    /// that would follow.
    pub noise: Option<u64>,
}

/// An event, and what is put into its pair of records.
#[derive(Clone)]
pub struct Step {
    /// The event.
    pub event: Event,
    /// At most one for the event's record and one for the reply's.
    pub puts: Vec<Put>,
}

/// What is put into a record.
#[derive(Clone, Copy)]
pub enum Put {
    /// A fault.
    Fault(&'static Fault),
    /// So many of the record's bytes alone; the log ends there.
    Cut(At, usize),
}

/// A log as it stands.
#[derive(Default)]
pub struct Made {
    /// The records, or what stands in their place, and what follows them.
    pub pieces: Vec<Piece>,
    /// "The first record at fault", and its word.
    fault: Option<String>,
}

/// A record, or what stands in its place.
pub struct Piece {
    /// The bytes.
    pub bytes: Vec<u8>,
    /// What was put in, in words.
    pub put: Option<String>,
}

impl Log {
    /// A log in which nothing is wrong.
    pub fn right(events: Vec<Event>) -> Log {
        let step = |event| Step {
            event,
            puts: Vec::new(),
        };
        Log {
            steps: events.into_iter().map(step).collect(),
            noise: None,
        }
    }

    /// The same log with something put into a pair.
    pub fn with(mut self, pair: usize, put: Put) -> Log {
        self.steps[pair].puts.push(put);
        self
    }

    /// The log; none where it does not begin with an accepted start, or what is
    /// put in does not fit.
    pub fn made(&self) -> Option<Made> {
        let pairs = pairs(self.steps.iter().map(|step| &step.event));
        let first = pairs.first()?;
        if first.event.kind != 256 || first.reply.number != 0 {
            return None;
        }
        let mut made = Made::default();
        for (step, pair) in self.steps.iter().zip(&pairs) {
            for is_reply in [false, true] {
                let mut puts = step.puts.iter();
                let Some(put) = puts.find(|put| put.is_reply() == is_reply) else {
                    made.add(pair.record(is_reply), None);
                    continue;
                };
                made.put_in(put, pair)?;
                if put.ends() {
                    return Some(made);
                }
                if let Some(seed) = self.noise {
                    made.add(noise(seed), Some("noise".to_string()));
                    return Some(made);
                }
            }
        }
        Some(made)
    }
}

/// "Number and word"; of the first record `0 start`, whatever is wrong with it.
fn verdict(record: usize, word: &str) -> String {
    match record {
        0 => "0 start".to_string(),
        _ => format!("{record} {word}"),
    }
}

fn noise(seed: u64) -> Vec<u8> {
    let mut random = Random::new(seed, 0);
    let length = 1 + random.below(60);
    random.bytes(length)
}

impl Pair<'_> {
    fn record(&self, is_reply: bool) -> Vec<u8> {
        if is_reply {
            self.reply.record()
        } else {
            self.event.record()
        }
    }
}

impl Put {
    fn is_reply(&self) -> bool {
        let (Put::Fault(Fault { at, .. }) | Put::Cut(at, _)) = self;
        *at == At::Reply
    }

    fn word(&self) -> &'static str {
        match self {
            Put::Fault(fault) => fault.word,
            Put::Cut(..) => "cut",
        }
    }

    fn words(&self) -> String {
        match self {
            Put::Fault(fault) => format!("{}, {}", fault.word, fault.what),
            Put::Cut(_, bytes) => format!("cut after {bytes} bytes"),
        }
    }

    fn ends(&self) -> bool {
        match self {
            Put::Fault(fault) => fault.ends,
            Put::Cut(..) => true,
        }
    }

    fn bytes(&self, pair: &Pair) -> Option<Vec<u8>> {
        match *self {
            Put::Fault(fault) => fault.put(pair),
            Put::Cut(_, length) => {
                let record = pair.record(self.is_reply());
                let is_cut = length < record.len();
                is_cut.then(|| record[..length].to_vec())
            }
        }
    }
}

impl Made {
    fn add(&mut self, bytes: Vec<u8>, put: Option<String>) {
        self.pieces.push(Piece { bytes, put });
    }

    fn put_in(&mut self, put: &Put, pair: &Pair) -> Option<()> {
        let record = self.pieces.len();
        self.fault
            .get_or_insert_with(|| verdict(record, put.word()));
        self.add(put.bytes(pair)?, Some(put.words()));
        Some(())
    }

    /// What an auditor is to print.
    pub fn expected(&self) -> &str {
        self.fault.as_deref().unwrap_or("ok")
    }

    /// The log's bytes.
    pub fn bytes(&self) -> Vec<u8> {
        let pieces = self.pieces.iter();
        pieces.flat_map(|piece| piece.bytes.clone()).collect()
    }
}

#[cfg(test)]
mod tests {
    use super::*;
    use crate::audits::events::few;
    use crate::audits::faults::faults;

    fn fault(what: &str) -> Put {
        Put::Fault(faults().find(|fault| fault.what == what).unwrap())
    }

    /// The bytes and the verdict.
    fn made(log: Log) -> (Vec<u8>, String) {
        let made = log.made().unwrap();
        (made.bytes(), made.expected().to_string())
    }

    const START: [u8; 16] = [6, 0, 0, 1, 0, 1, 254, 255, 6, 0, 0, 2, 0, 2, 0, 1];
    const STATUS: [u8; 17] = [2, 0, 20, 0, 11, 0, 0, 2, 0, 0, 5, 0, 0, 0, 1, 0, 0];
    const BOUNDARY: [u8; 12] = [2, 0, 22, 0, 6, 0, 0, 2, 0, 255, 0, 1];

    #[test]
    fn a_right_log() {
        let log = [&START[..], &STATUS, &BOUNDARY].concat();
        assert_eq!(made(Log::right(few().to_vec())), (log, "ok".to_string()));
    }

    #[test]
    fn the_first_of_two_faults_is_expected() {
        let (bytes, expected) = made(
            Log::right(few().to_vec())
                .with(2, fault("another a"))
                .with(1, fault("the last")),
        );
        let mut log = [&START[..], &STATUS, &BOUNDARY].concat();
        log[16 + 16] ^= 1;
        log[16 + 17 + 9] ^= 1;
        assert_eq!((bytes, expected.as_str()), (log, "3 bytes"));
        let at_start = Log::right(few().to_vec()).with(0, fault("event: length 0"));
        assert_eq!(made(at_start.with(1, fault("the first"))).1, "0 start");
    }

    #[test]
    fn a_fault_that_ends_the_log() {
        let log = Log::right(few().to_vec()).with(1, Put::Cut(At::Event, 3));
        let bytes = [&START[..], &STATUS[..3]].concat();
        assert_eq!(made(log), (bytes, "2 cut".to_string()));
        let log = Log::right(few().to_vec()).with(1, fault("reply: missing at the end"));
        let bytes = [&START[..], &STATUS[..4]].concat();
        assert_eq!(made(log), (bytes, "3 cut".to_string()));
    }

    #[test]
    fn noise_stands_behind_the_first_fault() {
        let mut log = Log::right(few().to_vec()).with(1, fault("another a"));
        log.noise = Some(7);
        let (bytes, expected) = made(log);
        assert_eq!(expected, "3 a");
        assert!(!bytes.ends_with(&BOUNDARY) && bytes.len() > 16 + 17);
    }

    #[test]
    fn what_does_not_fit_is_not_made() {
        let log = Log::right(few().to_vec()).with(2, fault("the last"));
        assert!(log.made().is_none(), "a boundary gives no bytes");
        let log = Log::right(few()[1..].to_vec());
        assert!(log.made().is_none(), "no start");
    }
}
