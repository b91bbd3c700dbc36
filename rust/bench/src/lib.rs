//! The logs that are measured, and the Rust kernel's side of a run.

mod maker;
mod modules;

use exos_kernel::{call, decode, Reply, Tables};
use std::iter;

pub use maker::maker;
pub use modules::modules;

/// Event records, one after the other.
#[derive(Default)]
pub struct Log {
    /// The records' bytes.
    pub bytes: Vec<u8>,
    /// How many records.
    pub records: usize,
}

impl Log {
    /// Adds a record.
    pub fn record(&mut self, kind: u16, body: &[u8]) {
        let length = u16::try_from(body.len() + 2).expect("a short body");
        self.bytes.extend(length.to_le_bytes());
        self.bytes.extend(kind.to_le_bytes());
        self.bytes.extend(body);
        self.records += 1;
    }

    /// Adds the records of another log.
    pub fn append(&mut self, other: &Log) {
        self.bytes.extend(&other.bytes);
        self.records += other.records;
    }

    /// A log that begins with a start of this many segments.
    pub fn started(r: u16, segments: u8) -> Log {
        let mut log = Log::default();
        log.start(r, segments);
        log
    }

    /// Start: the highest segment numbers.
    pub fn start(&mut self, r: u16, segments: u8) {
        let mut body = r.to_le_bytes().to_vec();
        body.extend((0..segments).rev().map(|below| 255 - below));
        self.record(256, &body);
    }

    /// Opens a channel on a device.
    pub fn open(&mut self, channel: u8, n: u16, name: &[u8]) {
        let mut body = vec![channel, 0];
        body.extend(n.to_le_bytes());
        body.extend(name);
        self.record(1, &body);
    }

    /// Closes a channel.
    pub fn close(&mut self, channel: u8) {
        self.record(3, &[channel]);
    }

    /// Links a device with `m` bytes.
    pub fn link(&mut self, m: u16, name: &[u8]) {
        let mut body = m.to_le_bytes().to_vec();
        body.extend(name);
        self.record(21, &body);
    }

    /// Reads from a channel.
    pub fn read(&mut self, channel: u8, offset: u16, length: u16) {
        self.bytes_of(6, channel, offset, &length.to_le_bytes());
    }

    /// Writes, loads and stores: a channel or segment, an offset, and what follows.
    pub fn bytes_of(&mut self, kind: u16, of: u8, offset: u16, rest: &[u8]) {
        let mut body = vec![of];
        body.extend(offset.to_le_bytes());
        body.extend(rest);
        self.record(kind, &body);
    }
}

/// Numbers that are the same in every run.
struct Numbers(u64);

impl Numbers {
    fn below(&mut self, n: u64) -> u64 {
        self.0 = self
            .0
            .wrapping_mul(6_364_136_223_846_793_005)
            .wrapping_add(1_442_695_040_888_963_407);
        (self.0 >> 33) % n
    }

    fn byte(&mut self, n: u64) -> u8 {
        self.below(n) as u8
    }

    fn word(&mut self, n: u64) -> u16 {
        self.below(n) as u16
    }
}

/// A log of all kinds but load module: most of it reads and writes of open channels. On eight segments about one record
/// in four is refused.
pub fn mixed(records: usize, segments: u8) -> Log {
    let mut numbers = Numbers(7);
    let mut log = Log::started(11_074, segments);
    let mut open: Vec<(u8, u16)> = Vec::new();
    while log.records < records {
        mixed_record(&mut log, segments, &mut numbers, &mut open);
    }
    log
}

fn mixed_record(log: &mut Log, segments: u8, numbers: &mut Numbers, open: &mut Vec<(u8, u16)>) {
    let segment = 255 - (segments - 1) + numbers.byte(segments.into());
    let offset = 128 + numbers.word(16_000);
    let chosen = numbers.below(open.len().max(1) as u64) as usize;
    match (numbers.below(100), open.get(chosen).copied()) {
        (0..=7, _) => {
            let (channel, n) = (numbers.byte(20), 64 + numbers.word(3_000));
            log.open(channel, n, b"VIDEO-1:FILE");
            if open.len() < 12 && open.iter().all(|(other, _)| *other != channel) {
                open.push((channel, n));
            }
        }
        (8..=13, Some((channel, _))) => {
            log.close(channel);
            open.remove(chosen);
        }
        (14..=45, Some((channel, n))) => log.read(channel, numbers.word(n.into()) / 2, 32),
        (46..=71, Some((channel, n))) => {
            log.bytes_of(8, channel, numbers.word(n.into()) / 2, &[7; 32])
        }
        (72..=77, _) => log.record(22, &[]),
        (78..=81, _) => log.record(20, &[]),
        (82..=84, _) => log.record(24, &[numbers.byte(2)]),
        (85..=87, _) => log.record(25, &[numbers.byte(2), segment]),
        (88..=91, _) => log.bytes_of(257, segment, offset, &[1, 2, 3, 4]),
        (92..=95, _) => log.bytes_of(258, segment, offset, &16u16.to_le_bytes()),
        (96, _) => log.record(23, &numbers.word(12_000).to_le_bytes()),
        (97, _) => log.record(19, b"\x02net"),
        (98, _) => log.link(3, &[b'D', b'I', b'S', b'C', b'A' + numbers.byte(4)]),
        (99, _) if numbers.below(8) == 0 => {
            log.record(0, &[0x70]);
            open.clear();
        }
        _ => log.record(22, &[]),
    }
}

/// What a run of a log left: the last answer, and how many of each number were given.
#[derive(Debug, PartialEq, Eq)]
pub struct Ran {
    /// The last answer.
    pub last: Reply,
    /// The answers by number.
    pub answers: [usize; 21],
}

/// The kind and the body of each record of a log.
fn events(log: &[u8]) -> impl Iterator<Item = (u16, &[u8])> {
    let mut rest = log;
    iter::from_fn(move || {
        let [l0, l1, k0, k1, later @ ..] = rest else {
            return None;
        };
        let body = usize::from(u16::from_le_bytes([*l0, *l1])) - 2;
        let (body, later) = later.split_at(body);
        rest = later;
        Some((u16::from_le_bytes([*k0, *k1]), body))
    })
}

/// Runs a log through the Rust kernel, whose calls test their tables.
pub fn run(ram: &mut [u8], out: &mut [u8], log: &[u8]) -> Ran {
    let mut tables = Tables::default();
    let mut ran = Ran {
        last: Reply::new(0, 0, 0),
        answers: [0; 21],
    };
    for (kind, body) in events(log) {
        ran.last = call(&mut tables, ram, decode(kind, body), out);
        ran.answers[usize::from(ran.last.number)] += 1;
    }
    ran
}
