//! What is sent for a case: tables, RAM and requests.

use super::{Image, Request, Sort};

/// The longest RAM that can be sent.
pub const MOST_RAM: u32 = 524_288;
/// What the bytes of the lent output are before a call.
pub const UNTOUCHED: u8 = 165;
/// The request goes on with what the request before left.
const GOES_ON: u8 = 0;
/// The request brings new tables and RAM.
const BRINGS_NEW: u8 = 1;
/// The request goes on likewise, and asks the writer.
const ASKS_WRITER: u8 = 2;

/// The RAM that a length and a seed stand for.
pub fn ram_of(length: u32, seed: u32) -> Vec<u8> {
    let mut x = seed;
    let mut next = || {
        x = x.wrapping_mul(1_664_525).wrapping_add(1_013_904_223);
        (x >> 24) as u8
    };
    (0..length).map(|_| next()).collect()
}

/// Tables and RAM to begin with, and the requests made on them in turn.
#[derive(Clone, Debug, PartialEq, Eq)]
pub struct Case {
    /// The tables to begin with.
    pub image: Image,
    /// The RAM's length.
    pub ram_length: u32,
    /// The seed of the RAM's bytes.
    pub seed: u32,
    /// The requests, of which the first is an event: no other brings tables.
    pub requests: Vec<Request>,
}

impl Case {
    /// Whether it can be sent: its first request is an event.
    pub fn is_whole(&self) -> bool {
        let first = self.requests.first();
        first.is_some_and(|request| request.sort == Sort::Event)
    }

    /// What is sent for the case.
    pub fn to_stream(&self) -> Vec<u8> {
        let mut stream = Vec::new();
        for (row, request) in self.requests.iter().enumerate() {
            match request.sort {
                _ if row == 0 => {
                    stream.push(BRINGS_NEW);
                    stream.extend(self.image);
                    stream.extend(self.ram_length.to_le_bytes());
                    stream.extend(self.seed.to_le_bytes());
                }
                Sort::Event => stream.push(GOES_ON),
                Sort::Writer => stream.push(ASKS_WRITER),
            }
            stream.extend(request.output.to_le_bytes());
            stream.extend((request.record.len() as u16).to_le_bytes());
            stream.extend(&request.record);
        }
        stream
    }
}

#[cfg(test)]
mod tests {
    use super::*;
    use crate::protocol::IMAGE;

    #[test]
    fn ram_by_hand() {
        // x: 1,013,904,223, then (1,013,904,223 * 1,664,525 + 1,013,904,223) mod 2^32 = 1,196,435,762
        assert_eq!(
            ram_of(2, 0),
            [
                (1_013_904_223u32 >> 24) as u8,
                (1_196_435_762u32 >> 24) as u8
            ]
        );
        assert_eq!(ram_of(3, 7)[..2], ram_of(2, 7));
    }

    #[test]
    fn a_case_as_it_is_sent() {
        let mut case = Case {
            image: [9; IMAGE],
            ram_length: 0x0102_0304,
            seed: 5,
            requests: vec![
                Request::new(6, 22, &[]),
                Request::new(0x0201, 24, &[1]),
                Request::to_writer(7, vec![3, 1, 2, 0, 9, 0]),
            ],
        };
        let stream = case.to_stream();
        assert_eq!(stream[0], 1);
        assert_eq!(stream[1..777], [9; IMAGE]);
        assert_eq!(stream[777..785], [4, 3, 2, 1, 5, 0, 0, 0]);
        assert_eq!(stream[785..791], [6, 0, 2, 0, 22, 0]);
        assert_eq!(stream[791..799], [0, 1, 2, 3, 0, 24, 0, 1]);
        assert_eq!(stream[799..], [2, 7, 0, 6, 0, 3, 1, 2, 0, 9, 0]);
        assert!(case.is_whole());
        case.requests.drain(..2);
        assert!(!case.is_whole());
    }
}
