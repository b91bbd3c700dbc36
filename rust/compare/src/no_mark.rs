//! Order 13, asked of every open that is closed again at once: it "gives back the
//! same tables and every RAM byte outside that record's positions; those are zero".
//! The positions are read off the tables after the open, and their places are
//! computed here: the kernel's open and close are not asked for them.

use crate::protocol::{Fault, Reply, Request};
use crate::quietly::is_good;
use crate::view::View;
use exos_kernel::{decode, Call, Tables, SEGMENT};

/// What there is before an open: good tables, and RAM of their length.
pub struct Before {
    channel: u8,
    name: Vec<u8>,
    tables: Tables,
    ram: Vec<u8>,
}

impl Before {
    /// What there is before a request; none where that is no open, or the tables
    /// are not good, or the RAM has another length.
    pub fn of(request: &Request, tables: &Tables, ram: &[u8]) -> Option<Before> {
        let (kind, body) = request.event()?;
        let Call::Open { channel, name, .. } = decode(kind, body) else {
            return None;
        };
        is_usable(tables, ram).then(|| Before {
            channel,
            name: name.to_vec(),
            tables: tables.clone(),
            ram: ram.to_vec(),
        })
    }

    /// The open, when it is done and has left these tables.
    pub fn opened(self, after: &Tables) -> Opened {
        Opened {
            before: self,
            after: after.clone(),
        }
    }
}

fn is_usable(tables: &Tables, ram: &[u8]) -> bool {
    ram.len() == SEGMENT * usize::from(tables.segments) && is_good(tables)
}

/// An open that was done.
pub struct Opened {
    before: Before,
    after: Tables,
}

impl Opened {
    /// The channel.
    pub fn channel(&self) -> u8 {
        self.before.channel
    }

    /// The string that named the device.
    pub fn name(&self) -> &[u8] {
        &self.before.name
    }

    /// The tables before it.
    pub fn before(&self) -> View<'_> {
        View(&self.before.tables)
    }

    /// Whether a request asks for the close of the channel.
    pub fn is_closed_by(&self, request: &Request) -> bool {
        let call = request.event().map(|(kind, body)| decode(kind, body));
        matches!(call, Some(Call::Close { channel }) if channel == self.channel())
    }

    /// What is wrong with the close that came next, by its reply and by what it
    /// left.
    pub fn fault(&self, reply: &Reply, tables: &Tables, ram: &[u8]) -> Option<Fault> {
        if (reply.number, reply.a, reply.b) != (0, 0, 0) {
            return Some(Fault::NotClosedAgain);
        }
        if *tables != self.before.tables {
            return Some(Fault::TablesMarked);
        }
        let is_same = self.ram_after().is_some_and(|expected| expected == ram);
        (!is_same).then_some(Fault::RamMarked)
    }

    /// The RAM that the close is to leave: the RAM before the open, and the
    /// record zero.
    fn ram_after(&self) -> Option<Vec<u8>> {
        let mut ram = self.before.ram.clone();
        self.places()?.for_each(|place| ram[place] = 0);
        Some(ram)
    }

    /// The record's places in the tables after the open; none where those have no
    /// such record.
    fn places(&self) -> Option<impl Iterator<Item = usize> + '_> {
        let view = View(&self.after);
        let is_there = is_usable(&self.after, &self.before.ram);
        let row = is_there.then(|| view.row_of(self.channel()))??;
        Some(view.record(row).map(move |position| view.place(position)))
    }

    /// Whether a byte in the record's places was not zero before.
    pub fn was_not_zero(&self) -> bool {
        let mut places = self.places().into_iter().flatten();
        places.any(|place| self.before.ram[place] != 0)
    }
}

#[cfg(test)]
mod tests {
    use super::*;
    use exos_kernel::{class, Channel};
    use exos_sentences::tables;

    /// The channel that is opened, which [`tables`] have not.
    const CHANNEL: u8 = 9;
    /// The first place of its record: position 1,532, which is 632 beyond R, in
    /// 254, the fifth segment.
    const FIRST: usize = 4 * SEGMENT + 16_383 - 632;
    /// The length of its record.
    const LENGTH: usize = 20;
    const CLOSED: Reply = Reply {
        number: 0,
        a: 0,
        b: 0,
        moved: 0,
        image: 0,
        ram: 0,
        output: 0,
        part: 0,
        part_bytes: 0,
        fault: None,
    };

    fn ram_before() -> Vec<u8> {
        vec![7; 6 * SEGMENT]
    }

    fn ram_after() -> Vec<u8> {
        let mut ram = ram_before();
        ram[FIRST + 1 - LENGTH..=FIRST].fill(0);
        ram
    }

    fn open(channel: u8) -> Request {
        Request::new(0, 1, &[&[channel, 0, 4, 0], &b"NET:"[..]].concat())
    }

    /// The third channel is opened, with n 4.
    fn opened() -> Opened {
        let mut after = tables();
        after.channels[2] = Channel {
            number: CHANNEL,
            device: 3,
            unit: 0,
            n: 4,
        };
        after.channel_count = 3;
        let before = Before::of(&open(CHANNEL), &tables(), &ram_before());
        before.unwrap().opened(&after)
    }

    #[test]
    fn no_mark() {
        assert_eq!(opened().fault(&CLOSED, &tables(), &ram_after()), None);
        assert!(opened().was_not_zero());
    }

    #[test]
    fn another_answer() {
        let replies = [
            Reply {
                number: 3,
                ..CLOSED
            },
            Reply { a: 1, ..CLOSED },
            Reply { b: 1, ..CLOSED },
        ];
        for reply in replies {
            let fault = opened().fault(&reply, &tables(), &ram_after());
            assert_eq!(fault, Some(Fault::NotClosedAgain));
        }
    }

    #[test]
    fn a_mark_in_the_tables() {
        let marks: [fn(&mut Tables); 8] = [
            |tables| tables.classes[1] = class::SYSTEM,
            |tables| tables.chain_length = 3,
            |tables| tables.chain[2] = 1,
            |tables| tables.user_boundary = 8_999,
            |tables| tables.channel_count = 3,
            |tables| tables.channels[2].n = 4,
            |tables| tables.devices[3].enabled = false,
            |tables| tables.default.unit = 5,
        ];
        for mark in marks {
            let mut left = tables();
            mark(&mut left);
            let fault = opened().fault(&CLOSED, &left, &ram_after());
            assert_eq!(fault, Some(Fault::TablesMarked), "{left:?}");
        }
    }

    #[test]
    fn a_mark_in_the_ram() {
        let places = [FIRST, FIRST - 1, FIRST - 15, FIRST - 16, FIRST - 19];
        let beside = [FIRST + 1, FIRST - LENGTH, 0, 6 * SEGMENT - 1];
        for place in places.into_iter().chain(beside) {
            let mut ram = ram_after();
            ram[place] ^= 7;
            let fault = opened().fault(&CLOSED, &tables(), &ram);
            assert_eq!(fault, Some(Fault::RamMarked), "{place}");
        }
    }

    #[test]
    fn a_record_that_is_not_there() {
        for row in [tables().channels[1], Channel::default()] {
            let mut opened = opened();
            opened.after.channels[2] = row;
            let fault = opened.fault(&CLOSED, &tables(), &ram_after());
            assert_eq!(fault, Some(Fault::RamMarked));
            assert!(!opened.was_not_zero());
        }
    }

    #[test]
    fn what_comes_before_an_open_of_good_tables() {
        let is_kept = |request: &Request, tables: &Tables, ram: &[u8]| {
            Before::of(request, tables, ram).is_some()
        };
        let (good, ram) = (tables(), ram_before());
        let mut bad = tables();
        bad.cold_r = 0;
        assert!(is_kept(&open(CHANNEL), &good, &ram));
        assert!(!is_kept(&open(CHANNEL), &bad, &ram));
        assert!(!is_kept(&open(CHANNEL), &good, &ram[1..]));
        assert!(!is_kept(&Request::new(0, 3, &[CHANNEL]), &good, &ram));
        assert!(!is_kept(&Request::new(0, 1, &[CHANNEL]), &good, &ram));
    }

    #[test]
    fn what_closes_it_again() {
        let is_closed = |request: Request| opened().is_closed_by(&request);
        assert!(is_closed(Request::new(7, 3, &[CHANNEL])));
        assert!(!is_closed(Request::new(0, 3, &[CHANNEL + 1])));
        assert!(!is_closed(Request::new(0, 3, &[CHANNEL, 0])));
        assert!(!is_closed(Request::new(0, 3, &[])));
        assert!(!is_closed(Request::new(0, 22, &[])));
        assert!(!is_closed(Request::to_writer(0, vec![3, 0, CHANNEL])));
    }
}
