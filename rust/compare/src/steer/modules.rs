//! Modules to load: most of them right, the others wrong in an item, in their
//! end, or all through.

use super::Steer;
use crate::counter::{Counter, Target};
use crate::protocol::Request;
use exos_kernel::{class, SEGMENT};
use exos_modules::{byte, cut, move_by, padded, set_page, stream, word};
use exos_modules::{Item, What, END, ILLEGAL, RESTORE};

/// How many items a long module has at most: some 4,000 bytes of stream.
const MANY: usize = 2_400;

impl Steer<'_> {
    /// A request that loads a module.
    pub fn load_module(&mut self) -> Request {
        let segment = self.segment(&[class::NONE, class::USER, class::SHARED]);
        let target = Target::of(self.view(), segment as u8).unwrap_or(Target::WHOLE);
        let (page, offset) = self.module_start(target);
        let stream = self.stream(target, Counter::start(page, offset));
        self.made(30, &[segment, page, offset], &stream)
    }

    /// A start page and offset, mostly within their ranges.
    pub(super) fn module_start(&mut self, target: Target) -> (usize, usize) {
        let page = match self.random.below(30) {
            0 => self.random.pick(&[4, 4, 255]),
            _ => self.random.below(4),
        };
        let offset = match self.random.below(30) {
            0 => self.random.pick(&[SEGMENT + 1, SEGMENT + 1, 65_535]),
            _ => self.place(target),
        };
        (page, offset)
    }

    /// An offset, mostly around an edge of what may be stored to.
    fn place(&mut self, target: Target) -> usize {
        let guard = self.random.pick(&[0x30, 0x3D, 0x3F, 0x5C]);
        let edge = match self.random.below(8) {
            0 | 1 => SEGMENT,
            2..=4 if target.is_page_zero => guard,
            2..=4 => target.reach,
            _ => self.random.below(SEGMENT),
        };
        let around = edge + self.random.below(2);
        let offset = around.saturating_sub(self.random.below(4));
        offset.min(SEGMENT)
    }

    fn stream(&mut self, target: Target, counter: Counter) -> Vec<u8> {
        let items = match self.random.below(60) {
            0 => return Vec::new(),
            1 => {
                let length = self.random.below(12);
                return self.random.bytes(length);
            }
            2 => self.many_stores(),
            _ => self.items(target, counter),
        };
        self.ended(items)
    }

    /// Many bytes and words.
    pub(super) fn many_stores(&mut self) -> Vec<Item> {
        let count = self.random.below(MANY);
        let mut store = || match self.random.below(3) {
            0 => word(self.random.word()),
            _ => byte(self.random.byte()),
        };
        (0..count).map(|_| store()).collect()
    }

    /// Some items, few of them at fault.
    pub(super) fn items(&mut self, target: Target, mut counter: Counter) -> Vec<Item> {
        let mut items = Vec::new();
        for _ in 0..self.random.below(10) {
            let (mut item, mut after) = (self.item(target, counter), counter);
            if after.take(item, target).is_some() && !self.random.one_in(4) {
                item = move_by(counter.way_to(self.random.below(SEGMENT)));
                after.take(item, target);
            }
            counter = after;
            items.push(item);
        }
        items
    }

    fn item(&mut self, target: Target, counter: Counter) -> Item {
        match self.random.below(20) {
            0..=5 => byte(self.random.byte()),
            6..=11 => word(self.random.word()),
            12..=14 => set_page(self.random.below(4) as u8),
            15 | 16 => RESTORE,
            17 | 18 => self.a_move(target, counter),
            _ => ILLEGAL,
        }
    }

    fn a_move(&mut self, target: Target, counter: Counter) -> Item {
        let to = match self.random.below(8) {
            0 => 0,
            1 => SEGMENT - 1,
            2 => SEGMENT,
            3 => 65_535,
            4 => counter.offset,
            5 => usize::from(self.random.word()),
            _ => self.place(target),
        };
        move_by(counter.way_to(to))
    }

    /// The stream of items, mostly with the end item.
    fn ended(&mut self, mut items: Vec<Item>) -> Vec<u8> {
        match self.random.below(16) {
            0 => self.cut(&items),
            1 => self.ill_padded(&items),
            few => {
                items.push(END);
                let mut stream = stream(&items);
                if few == 2 {
                    let more = self.random.below(4);
                    stream.extend(self.random.bytes(more));
                }
                stream
            }
        }
    }

    /// Items, and some bits of one more.
    fn cut(&mut self, items: &[Item]) -> Vec<u8> {
        let what = self.random.pick(&What::LEGAL);
        let bits = self.random.below(what.length());
        let value = self.random.word();
        cut(items, Item { what, value }, bits)
    }

    /// Items, the end item, and padding with a bit or more wrong.
    fn ill_padded(&mut self, items: &[Item]) -> Vec<u8> {
        let length = 1 + self.random.below(7);
        let mut padding: Vec<bool> = (0..length).map(|_| self.random.one_in(3)).collect();
        padding[self.random.below(length)] = true;
        padded(items, &padding)
    }
}
