//! The independent kernel's side: its tables, its RAM and their digests.

use crate::moved::Due;
use crate::no_mark::{Before, Opened};
use crate::protocol::{
    digest, image_of, joined, power, ram_of, tables_of, Case, Reply, Request, Writing, UNTOUCHED,
};
use crate::quietly::quietly;
use crate::round_trips::fault_of;
use exos_kernel::{call, decode, lend, list_of, write_module, Lent, Refusal, Tables};

/// Tables and RAM on which requests are made in turn.
pub struct Machine {
    /// The tables.
    pub tables: Tables,
    ram: Watched,
    /// The last request, if that was an open and done.
    opened: Option<Opened>,
    /// The open just before it, if it asked for the close of that.
    again: Option<Opened>,
}

impl Machine {
    /// The machine that a case begins with.
    pub fn of(case: &Case) -> Machine {
        Machine {
            tables: tables_of(&case.image),
            ram: Watched::new(ram_of(case.ram_length, case.seed)),
            opened: None,
            again: None,
        }
    }

    /// Makes one request.
    pub fn answer(&mut self, request: &Request) -> Reply {
        let opened = self.opened.take();
        self.again = opened.filter(|opened| opened.is_closed_by(request));
        let before = Before::of(request, &self.tables, &self.ram.bytes);
        let due = Due::of(request, &self.tables);
        let reply = self.made(request);
        let before = before.filter(|_| reply.number == 0);
        self.opened = before.map(|before| before.opened(&self.tables));
        let mark = self
            .again()
            .and_then(|opened| opened.fault(&reply, &self.tables, &self.ram.bytes));
        Reply {
            fault: reply.fault.or(mark).or(due.fault(&reply)),
            ..reply
        }
    }

    fn made(&mut self, request: &Request) -> Reply {
        let mut output = vec![UNTOUCHED; usize::from(request.output)];
        let (tables, ram) = (&mut self.tables, &mut self.ram.bytes);
        let made = quietly(|| {
            let reply = match request.event() {
                Some((kind, body)) => call(tables, ram, decode(kind, body), &mut output),
                None => written(&request.record, &mut output),
            };
            let fault = match reply.number {
                0 => fault_of(request, reply.b, &output),
                _ => None,
            };
            (reply, fault, lend(tables, ram, request.channel_lent()))
        });
        let Some((reply, fault, lent)) = made else {
            return Reply::of_panic();
        };
        let (part, part_bytes) = match lent {
            Lent::Part { start, bytes } => (start as u64, digest(bytes)),
            _ => (0, digest(&[])),
        };
        Reply {
            number: u16::from(reply.number),
            a: u16::from(reply.a),
            b: reply.b,
            moved: reply.moved,
            image: digest(&image_of(&self.tables)),
            ram: self.ram.digest(),
            output: digest(&output),
            part,
            part_bytes,
            fault,
        }
    }

    /// The length of the RAM.
    pub fn ram_length(&self) -> usize {
        self.ram.bytes.len()
    }

    /// The channel that the last request opened.
    pub fn opened(&self) -> Option<u8> {
        self.opened.as_ref().map(Opened::channel)
    }

    /// The open just before the last request, if that asked for its close.
    pub(crate) fn again(&self) -> Option<&Opened> {
        self.again.as_ref()
    }
}

/// What the writer answers to a record: CALL where that is no start and list.
fn written(record: &[u8], buffer: &mut [u8]) -> exos_kernel::Reply {
    let Some(Writing { page, offset, list }) = Writing::of(record) else {
        return Refusal::Call.into();
    };
    let Some(items) = list_of(list) else {
        return Refusal::Call.into();
    };
    match write_module(page, offset, &items, buffer) {
        Ok(length) => exos_kernel::Reply::new(0, 0, length as u16),
        Err(refusal) => refusal.into(),
    }
}

/// The replies of the independent kernel to a case.
pub fn replies(case: &Case) -> Vec<Reply> {
    let mut machine = Machine::of(case);
    let requests = case.requests.iter();
    requests.map(|request| machine.answer(request)).collect()
}

/// How many bytes share one kept digest.
const BLOCK: usize = 512;

/// RAM with the digest of each block, as it was when last asked for. Most
/// calls change few blocks, and comparing is much faster than digesting.
struct Watched {
    bytes: Vec<u8>,
    known: Vec<u8>,
    digests: Vec<u64>,
}

impl Watched {
    fn new(bytes: Vec<u8>) -> Watched {
        Watched {
            known: bytes.clone(),
            digests: bytes.chunks(BLOCK).map(digest).collect(),
            bytes,
        }
    }

    /// The digest of all bytes as they are now.
    fn digest(&mut self) -> u64 {
        let now = self.bytes.chunks(BLOCK);
        let known = self.known.chunks_mut(BLOCK);
        for ((now, known), kept) in now.zip(known).zip(&mut self.digests) {
            if now != known {
                *kept = digest(now);
                known.copy_from_slice(now);
            }
        }
        let rest = self.bytes.len() % BLOCK;
        let (whole, last) = self.digests.split_at(self.bytes.len() / BLOCK);
        let block = power(BLOCK);
        let whole = whole.iter().fold(0, |h, &kept| joined(h, kept, block));
        last.iter()
            .fold(whole, |h, &kept| joined(h, kept, power(rest)))
    }
}

#[cfg(test)]
mod tests {
    use super::*;

    #[test]
    fn the_kept_digest_is_the_digest() {
        for length in [0, 1, BLOCK - 1, BLOCK, BLOCK + 1, 3 * BLOCK + 7] {
            let mut ram = Watched::new(ram_of(length as u32, 4));
            assert_eq!(ram.digest(), digest(&ram.bytes));
            for at in [0, BLOCK, length.saturating_sub(1)] {
                if let Some(byte) = ram.bytes.get_mut(at) {
                    *byte ^= 0x40;
                }
                assert_eq!(ram.digest(), digest(&ram.bytes), "{length} {at}");
            }
        }
    }

    #[test]
    fn a_call_on_the_machine() {
        let start = Request::new(0, 256, &[0x42, 0x2B, 252, 253, 254, 255]);
        let status = Request::new(6, 20, &[]);
        let case = Case {
            image: [0; crate::protocol::IMAGE],
            ram_length: 65_536,
            seed: 1,
            requests: vec![status.clone(), start, status],
        };
        let replies = replies(&case);
        let numbers: Vec<_> = replies
            .iter()
            .map(|reply| (reply.number, reply.a, reply.b))
            .collect();
        assert_eq!(numbers, [(1, 0, 0), (0, 4, 11_074), (0, 0, 5)]);
        assert_eq!(replies[0].output, digest(&[165; 6]));
        assert_eq!(replies[0].ram, digest(&ram_of(65_536, 1)));
        assert_eq!(replies[1].ram, digest(&[0; 65_536]));
        assert_eq!(replies[2].output, digest(&[2, 0, 1, 0, 0, 165]));
        assert_eq!(replies[2].image, replies[1].image);
    }

    /// The channel that each request opened, and the one that it closed again.
    fn opened_and_again(ram_length: u32, requests: &[Request]) -> Vec<(Option<u8>, Option<u8>)> {
        let mut machine = Machine::of(&Case {
            image: [0; crate::protocol::IMAGE],
            ram_length,
            seed: 1,
            requests: Vec::new(),
        });
        let answers = requests.iter().map(|request| {
            assert_eq!(machine.answer(request).fault, None);
            (machine.opened(), machine.again().map(Opened::channel))
        });
        answers.collect()
    }

    #[test]
    fn opens_that_are_closed_again() {
        let open = |channel: u8, status: u8| {
            let body = [&[channel, status, 3, 0], &b"VIDEO:"[..]].concat();
            Request::new(0, 1, &body)
        };
        let close = |channel: u8| Request::new(0, 3, &[channel]);
        let requests = [
            Request::new(0, 256, &[0, 1, 254, 255]),
            open(5, 0),
            close(5),
            open(5, 9),
            close(5),
            open(5, 0),
            open(6, 0),
            close(5),
            close(6),
            open(7, 0),
            Request::new(0, 22, &[]),
            close(7),
        ];
        let (none, opened, again) = ((None, None), |n| (Some(n), None), |n| (None, Some(n)));
        let expected = [
            none,
            opened(5),
            again(5),
            none,
            none,
            opened(5),
            opened(6),
            none,
            none,
            opened(7),
            none,
            none,
        ];
        assert_eq!(opened_and_again(32_768, &requests), expected);
        assert_eq!(opened_and_again(32_767, &requests), [none; 12]);
    }

    #[test]
    fn the_writer_on_the_machine() {
        let open = [&[0x40, 0, 3, 0], &b"VIDEO:"[..]].concat();
        let start = [3, 0x00, 0x40];
        let writing =
            |output: usize, list: &[u8]| Request::to_writer(output, [&start[..], list].concat());
        let case = Case {
            image: [0; crate::protocol::IMAGE],
            ram_length: 65_536,
            seed: 1,
            requests: vec![
                Request::new(0, 256, &[0x42, 0x2B, 252, 253, 254, 255]),
                Request::new(0, 1, &open),
                writing(3, &[2, 3, 0]),
                writing(1, &[2, 3, 0]),
                writing(3, &[0, 1, 0]),
                writing(3, &[0, 1]),
                Request::to_writer(3, start[..2].to_vec()),
            ],
        };
        let replies = replies(&case);
        let (opened, replies) = (replies[1], &replies[2..]);
        let numbers: Vec<_> = replies
            .iter()
            .map(|reply| (reply.number, reply.a, reply.b))
            .collect();
        let refused = [13, 20, 2, 2].map(|number| (number, 0, 0));
        assert_eq!(numbers, [&[(0, 0, 2)], &refused[..]].concat());
        assert_eq!(replies[0].output, digest(&[0xA7, 0x80, 165]));
        assert_eq!(replies[1].output, digest(&[165]));
        for reply in &replies[2..] {
            assert_eq!(reply.output, digest(&[165; 3]));
        }
        for reply in replies {
            assert_eq!((reply.image, reply.ram), (opened.image, opened.ram));
        }
        let lent: Vec<_> = replies.iter().map(|reply| reply.part).collect();
        let part = 3 * 16_384 + 11_055;
        assert_eq!(lent, [part, part, part, part, 0], "40h, and 0 in the end");
    }

    #[test]
    fn what_is_lent_after_a_call() {
        let open = |channel: u8, n: u16| {
            let body = [&[channel, 0], &n.to_le_bytes()[..], b"VIDEO:"].concat();
            Request::new(0, 1, &body)
        };
        let case = Case {
            image: [0; crate::protocol::IMAGE],
            ram_length: 65_536,
            seed: 1,
            requests: vec![
                Request::new(0, 256, &[0x42, 0x2B, 252, 253, 254, 255]),
                open(5, 3),
                Request::new(0, 8, &[5, 0, 0, 1, 2, 3]),
                open(0, 11_100),
                Request::new(0, 22, &[]),
                open(6, 0),
                Request::new(0, 3, &[5]),
            ],
        };
        let lent: Vec<_> = replies(&case)
            .iter()
            .map(|reply| (reply.part, reply.part_bytes))
            .collect();
        // the buffer of 5 runs down from offset 11,057 of the fourth segment
        let part = 3 * 16_384 + 11_055;
        let written = (part, digest(&[3, 2, 1]));
        let none = (0, 0);
        assert_eq!(lent[0], none, "0x42 is not open");
        assert_eq!(lent[1], (part, digest(&[0; 3])), "opened");
        assert_eq!(lent[2], written, "written");
        assert_eq!(lent[3], none, "0 lies in two segments");
        assert_eq!(lent[4], none, "no body: 0");
        assert_eq!(lent[5], none, "6 has n 0");
        assert_eq!(lent[6], none, "5 is closed");
    }
}
