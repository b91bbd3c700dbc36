//! A second, plain model of the kernel.
//!
//! It keeps a vector of bytes a channel and draws the whole line anew, byte by
//! byte, after each change. With it: "A byte read from an open channel is the
//! one last written there", which by order 2 "speaks of the bytes given", "a
//! user's byte changes only by the user's store while that place stays the
//! user's", "the system holds the fewest segments", an open "is refused for
//! room exactly when no such layout fits", and order 8's "how many record bytes
//! changed position or place".

use crate::machine::{Answer, Machine};
use std::collections::HashMap;

#[derive(Clone, Copy, PartialEq, Eq, Debug)]
enum Held {
    Free,
    User,
    System,
    Device,
    Shared,
}

pub struct Open {
    number: u8,
    device: u8,
    unit: u8,
    pub bytes: Vec<u8>,
}

/// Where a byte of a record is: its position, segment and offset.
type Spot = (usize, usize, usize);

/// A channel, and where each byte of its record is.
pub type Spots = (u8, Vec<Spot>);

/// A string for open, the device and the unit it gives.
pub type Spelling = (&'static str, Option<&'static str>, Option<u8>);

const SIZE: usize = 16_384;

pub struct Model {
    pub list: Vec<u8>,
    held: Vec<(u8, Held)>,
    chain: Vec<u8>,
    user_boundary: usize,
    r: usize,
    cold_r: usize,
    pub opens: Vec<Open>,
    devices: Vec<&'static str>,
    pub default: (&'static str, u8),
    memory: Vec<Vec<u8>>,
    stored: HashMap<(u8, usize), u8>,
}

impl Model {
    pub fn new(r: usize, list: &[u8]) -> Model {
        let mut memory = vec![vec![]; 256];
        for &segment in list {
            memory[usize::from(segment)] = vec![0; SIZE];
        }
        let mut held: Vec<_> = list[1..].iter().map(|&s| (s, Held::Free)).collect();
        held.last_mut().unwrap().1 = Held::System;
        Model {
            list: list.to_vec(),
            held,
            chain: vec![255],
            user_boundary: 0,
            r,
            cold_r: r,
            opens: vec![],
            devices: vec!["VIDEO", "NET", "KEYBOARD"],
            default: ("", 0),
            memory,
            stored: HashMap::new(),
        }
    }

    pub fn t(&self) -> usize {
        self.opens.iter().map(|open| 16 + open.bytes.len()).sum()
    }

    fn count(&self, held: Held) -> usize {
        self.held.iter().filter(|row| row.1 == held).count()
    }

    fn held(&mut self, segment: u8) -> Option<&mut Held> {
        let row = self.held.iter_mut().find(|row| row.0 == segment);
        row.map(|row| &mut row.1)
    }

    pub fn find(&self, number: u8) -> Option<usize> {
        self.opens.iter().position(|open| open.number == number)
    }

    /// All places of the chain, in line order.
    fn places(&self) -> impl Iterator<Item = (usize, usize)> + '_ {
        self.chain.iter().flat_map(|&segment| {
            let end = if segment == 255 { self.r } else { SIZE };
            (0..end).rev().map(move |at| (usize::from(segment), at))
        })
    }

    /// Where each byte of each open record is.
    pub fn spots(&self) -> Vec<Spots> {
        let places = self.places().enumerate();
        let mut spots = places.map(|(position, (segment, at))| (position, segment, at));
        let opens = self.opens.iter();
        opens
            .map(|open| {
                let length = 16 + open.bytes.len();
                (open.number, spots.by_ref().take(length).collect())
            })
            .collect()
    }

    /// "How many record bytes changed position or place", of records that are still
    /// open.
    pub fn changed_since(&self, before: &[Spots]) -> usize {
        let now = self.spots();
        let of_both = before.iter().flat_map(|(number, before)| {
            let now = now.iter().filter(move |now| now.0 == *number);
            now.flat_map(move |now| before.iter().zip(&now.1))
        });
        of_both.filter(|(before, now)| before != now).count()
    }

    /// How many places a layout may use.
    pub fn layout_room(&self) -> usize {
        let free = self.count(Held::Free);
        let shared = self.count(Held::Shared);
        let held = self.count(Held::System) + shared - 1;
        let more = if shared == 0 { free } else { 0 };
        self.r + SIZE * (held + more) - self.user_boundary
    }

    fn fewest_segments(&self) -> usize {
        let room = |k: &usize| self.r + SIZE * (k - 1);
        (1..).find(|k| room(k) >= self.t()).unwrap()
    }

    pub fn exos_boundary(&self) -> usize {
        self.r + SIZE * (self.chain.len() - 1) - self.t()
    }

    fn erase(&mut self) {
        let places: Vec<_> = self.places().take(self.t()).collect();
        for (segment, at) in places {
            self.memory[segment][at] = 0;
        }
    }

    /// Fits the chain to the line and draws the line.
    fn draw(&mut self) {
        let fewest = self.fewest_segments();
        while self.chain.len() < fewest {
            let row = self.held.iter_mut().rfind(|row| row.1 == Held::Free);
            let row = row.unwrap();
            row.1 = Held::System;
            self.chain.push(row.0);
        }
        while self.chain.len() > fewest {
            let segment = self.chain.pop().unwrap();
            let held = self.held(segment).unwrap();
            if *held == Held::Shared {
                *held = Held::User;
                self.user_boundary = 0;
            } else {
                *held = Held::Free;
            }
        }
        let places: Vec<_> = self.places().take(self.t()).collect();
        let bytes: Vec<u8> = self.opens.iter().flat_map(record).collect();
        for ((segment, at), byte) in places.into_iter().zip(bytes) {
            self.memory[segment][at] = byte;
        }
    }

    pub fn open(&mut self, number: u8, n: usize, spelling: Spelling) -> Answer {
        let (_, device, unit) = spelling;
        let name = device.unwrap_or(self.default.0);
        let absent = if device.is_some() { 0 } else { self.default.1 };
        let unit = unit.unwrap_or(absent);
        if number == 255 {
            return (3, 0, 0);
        }
        if self.find(number).is_some() {
            return (4, 0, 0);
        }
        let Some(device) = self.devices.iter().rposition(|&other| other == name) else {
            return (6, 0, 0);
        };
        if self.opens.len() == 32 {
            return (8, 0, 0);
        }
        if self.t() + 16 + n > self.layout_room() {
            return (9, 0, 0);
        }
        let device = device as u8;
        self.opens.push(Open {
            number,
            device,
            unit,
            bytes: vec![0; n],
        });
        self.draw();
        (0, device, unit.into())
    }

    pub fn close(&mut self, number: u8) -> Answer {
        let Some(at) = self.find(number) else {
            return (3, 0, 0);
        };
        self.erase();
        self.opens.remove(at);
        self.draw();
        (0, 0, 0)
    }

    /// "The bytes that remain, up to the length asked."
    pub fn read(&self, number: u8, offset: usize, length: usize) -> Result<&[u8], Answer> {
        let at = self.find(number).ok_or((3, 0, 0))?;
        let rest = self.opens[at].bytes.get(offset..).unwrap_or(&[]);
        Ok(rest.get(..length).unwrap_or(rest))
    }

    pub fn write(&mut self, number: u8, offset: usize, data: &[u8]) -> Answer {
        let Some(at) = self.find(number) else {
            return (3, 0, 0);
        };
        let bytes = &mut self.opens[at].bytes;
        let Some(part) = bytes.get_mut(offset..offset + data.len()) else {
            return (13, 0, 0);
        };
        part.copy_from_slice(data);
        self.draw();
        (0, 0, data.len() as u16)
    }

    pub fn link(&mut self, m: usize, name: &'static str) -> Answer {
        if self.devices.len() == 16 {
            return (8, 0, 0);
        }
        if m + 256 > self.r || self.t() + m > self.layout_room() {
            return (9, 0, 0);
        }
        self.erase();
        let old = self.r;
        self.r -= m;
        self.memory[255][self.r..old].fill(0);
        self.draw();
        self.devices.push(name);
        (0, self.devices.len() as u8 - 1, self.r as u16)
    }

    pub fn allocate(&mut self, caller: u8) -> Answer {
        let boundary = self.exos_boundary();
        let unshared = self.count(Held::Shared) == 0;
        if let Some(row) = self.held.iter_mut().find(|row| row.1 == Held::Free) {
            row.1 = if caller == 0 {
                Held::User
            } else {
                Held::Device
            };
            return (0, row.0, 16_384);
        }
        if caller == 0 && unshared && boundary > 0 {
            let last = *self.chain.last().unwrap();
            *self.held(last).unwrap() = Held::Shared;
            self.user_boundary = boundary;
            return (17, last, boundary as u16);
        }
        (10, 0, 0)
    }

    pub fn free(&mut self, caller: u8, segment: u8) -> Answer {
        let Some(held) = self.held(segment) else {
            return (11, 0, 0);
        };
        match (caller, *held) {
            (0, Held::User) | (1, Held::Device) => *held = Held::Free,
            (0, Held::Shared) => {
                *held = Held::System;
                self.user_boundary = 0;
            }
            _ => return (11, 0, 0),
        }
        (0, 0, 0)
    }

    pub fn set_boundary(&mut self, value: usize) -> Answer {
        if self.count(Held::Shared) == 0 || value > self.exos_boundary() {
            return (12, 0, 0);
        }
        self.user_boundary = value;
        (0, 0, 0)
    }

    /// How much of a segment is the user's.
    pub fn users(&self, segment: u8) -> Option<usize> {
        if segment == self.list[0] {
            return Some(SIZE);
        }
        let row = self.held.iter().find(|row| row.0 == segment)?;
        match row.1 {
            Held::User => Some(SIZE),
            Held::Shared => Some(self.user_boundary),
            _ => None,
        }
    }

    pub fn is_guarded(&self, segment: u8, at: usize) -> bool {
        segment == self.list[0] && (0x30..=0x5B).contains(&at) && at != 0x3D && at != 0x3E
    }

    pub fn store(&mut self, segment: u8, offset: usize, data: &[u8]) -> Answer {
        let Some(end) = self.users(segment) else {
            return (11, 0, 0);
        };
        if offset + data.len() > end {
            return (13, 0, 0);
        }
        if (offset..offset + data.len()).any(|at| self.is_guarded(segment, at)) {
            return (14, 0, 0);
        }
        for (at, &byte) in (offset..).zip(data) {
            self.memory[usize::from(segment)][at] = byte;
            self.stored.insert((segment, at), byte);
        }
        (0, 0, data.len() as u16)
    }

    pub fn load(&self, segment: u8, offset: usize, length: usize) -> Result<&[u8], Answer> {
        let end = self.users(segment).ok_or((11, 0, 0))?;
        let part = self.memory[usize::from(segment)][..end].get(offset..offset + length);
        part.ok_or((13, 0, 0))
    }

    pub fn reset(&mut self, flags: u8) -> Answer {
        if flags & 0x30 != 0 {
            while let Some(open) = self.opens.last() {
                self.close(open.number);
            }
        }
        if flags & 0x20 != 0 {
            self.devices.truncate(3);
            self.memory[255][self.r..self.cold_r].fill(0);
            self.r = self.cold_r;
        }
        if flags & 0x40 != 0 {
            for segment in self.list.clone() {
                self.free(0, segment);
            }
        }
        (0, 0, 0)
    }

    /// Everything the model knows, against the machine.
    pub fn check(&mut self, machine: &mut Machine) {
        for &segment in &self.list {
            let expected = &self.memory[usize::from(segment)];
            assert!(machine.segment(segment) == expected, "{segment}");
        }
        assert_eq!(machine.chain(), self.chain);
        assert_eq!(machine.chain().len(), self.fewest_segments());
        let channels = &machine.tables.channels[..self.opens.len()];
        for (channel, open) in channels.iter().zip(&self.opens) {
            let (device, unit) = (channel.device, channel.unit);
            assert_eq!((device, unit), (open.device, open.unit));
        }
        let counts = [
            Held::Free,
            Held::User,
            Held::System,
            Held::Device,
            Held::Shared,
        ]
        .map(|held| self.count(held) as u8);
        assert_eq!(machine.status(), counts);
        let boundary = (0, *self.chain.last().unwrap(), self.exos_boundary() as u16);
        assert_eq!(machine.boundary(), boundary);
        self.check_stored(machine);
    }

    fn check_stored(&mut self, machine: &mut Machine) {
        let mut stored = std::mem::take(&mut self.stored);
        stored.retain(|&(segment, at), _| self.users(segment).is_some_and(|end| at < end));
        for (&(segment, at), &byte) in &stored {
            assert_eq!(machine.segment(segment)[at], byte);
        }
        self.stored = stored;
    }
}

/// The record of a channel, heading first.
fn record(open: &Open) -> Vec<u8> {
    let length = 16 + open.bytes.len();
    let mut bytes = vec![length as u8, (length >> 8) as u8, (length >> 16) as u8, 0];
    bytes.extend([1, 0, open.number, open.device, open.unit]);
    bytes.extend([0; 7]);
    bytes.extend(&open.bytes);
    bytes
}
