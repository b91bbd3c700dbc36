//! The edges of writing modules.

mod words;

use super::{Edge, Meeting};
use crate::counter::{Counter, Target};
use crate::protocol::{Reply, Request, Writing};
use exos_kernel::SEGMENT;
use exos_modules::{of_list, Item, What, END};

use words::PAGES;
pub use words::{all_writer_edges, WriterEdge};

/// A module of more bytes is a long one.
const LONG: usize = 3_000;
/// As many items as a record can have.
const MOST_ITEMS: usize = 21_844;

/// An item, and the counter that it meets.
struct Step {
    item: Item,
    counter: Counter,
}

/// The items of a list up to the first at fault.
fn steps_of(mut counter: Counter, items: &[Item]) -> Vec<Step> {
    let mut steps = Vec::new();
    for &item in items {
        steps.push(Step { item, counter });
        let is_above = item.what == What::SetPage && item.value > 3;
        if is_above || counter.take(item, Target::WHOLE).is_some() {
            break;
        }
    }
    steps
}

/// How many bits the module of some items has.
fn bits_of(items: &[Item]) -> usize {
    let items = items.iter().chain([&END]);
    items.map(|item| item.what.length()).sum()
}

impl<Met: FnMut(Edge)> Meeting<'_, Met> {
    fn writer(&mut self, number: u16, at: bool, edge: WriterEdge) {
        self.answered(number, at, Edge::Writer(edge));
    }

    pub(super) fn write_module(&mut self, request: &Request, reply: &Reply) {
        self.at(reply.part > 0, Edge::Writer(WriterEdge::LentPart));
        let Some(Writing { page, offset, list }) = Writing::of(&request.record) else {
            self.writer(2, true, WriterEdge::NoStart);
            return;
        };
        let (page, offset) = (usize::from(page), usize::from(offset));
        let is_start = page <= 3 && offset <= SEGMENT;
        let Some(items) = of_list(list) else {
            self.no_list(list);
            self.writer(2, !is_start, WriterEdge::NoListNorStart);
            return;
        };
        let bytes = bits_of(&items).div_ceil(8);
        let is_short = self.output < bytes;
        self.writer(20, is_short, WriterEdge::PageAndRange);
        self.writer_start(page, offset);
        if is_start {
            let steps = steps_of(Counter::start(page, offset), &items);
            self.writer_items(&items, &steps);
            self.writer_module(&items);
            self.writer_buffer(bytes);
        }
    }

    /// Bytes that are no list of items, by its first item that is none.
    fn no_list(&mut self, list: &[u8]) {
        let Some(wrong) = list.chunks(3).find(|item| of_list(item).is_none()) else {
            return;
        };
        match *wrong {
            [0, ..] if wrong.len() == 3 => {
                self.writer(2, wrong[1..] == [0, 1], WriterEdge::ByteAbove);
            }
            [3, ..] if wrong.len() == 3 => {
                self.writer(2, wrong[1..] == [1, 0], WriterEdge::RestoreLow);
                self.writer(2, wrong[1..] == [0, 1], WriterEdge::RestoreHigh);
            }
            [5, _, _] => self.writer(2, true, WriterEdge::Tag5),
            [255, _, _] => self.writer(2, true, WriterEdge::Tag255),
            _ => {
                let is_cut = wrong.len() < 3;
                self.writer(2, is_cut, WriterEdge::Cut(wrong.len()));
            }
        }
    }

    fn writer_start(&mut self, page: usize, offset: usize) {
        self.writer(0, page == 3, WriterEdge::LastPage);
        self.writer(0, offset == SEGMENT, WriterEdge::LastOffset);
        let last = (page, offset) == (3, SEGMENT);
        self.writer(0, last, WriterEdge::LastStart);
        let past = page == 4 && offset <= SEGMENT;
        self.writer(20, past, WriterEdge::PastPage);
        let past = page <= 3 && offset == SEGMENT + 1;
        self.writer(20, past, WriterEdge::PastOffset);
    }

    fn writer_items(&mut self, items: &[Item], steps: &[Step]) {
        for step in steps {
            match step.item.what {
                What::Byte | What::Word => self.writer_store(step),
                What::Move => self.writer_move(step),
                What::SetPage => {
                    for &(page, answer) in PAGES {
                        let is_set = step.item.value == page;
                        self.writer(answer, is_set, WriterEdge::SetPage(page, answer));
                    }
                }
                _ => {}
            }
        }
        let is_between = steps.len() > 1 && steps.len() < items.len();
        self.writer(20, is_between, WriterEdge::FaultBetween);
    }

    fn writer_store(&mut self, step: &Step) {
        let ends = [
            (0, What::Byte, SEGMENT - 1, WriterEdge::ByteLast),
            (20, What::Byte, SEGMENT, WriterEdge::BytePast),
            (0, What::Word, SEGMENT - 2, WriterEdge::WordLast),
            (20, What::Word, SEGMENT - 1, WriterEdge::WordAcross),
            (20, What::Word, SEGMENT, WriterEdge::WordPast),
        ];
        for (answer, what, at, edge) in ends {
            let is_there = (step.item.what, step.counter.offset) == (what, at);
            self.writer(answer, is_there, edge);
        }
    }

    fn writer_move(&mut self, step: &Step) {
        let (by, from) = (step.item.value, step.counter.offset);
        let to = step.counter.moved(by);
        self.writer(0, to == 0 && by > 0, WriterEdge::MoveFirst);
        self.writer(0, to == SEGMENT - 1, WriterEdge::MoveLast);
        self.writer(20, to == SEGMENT && by > 0, WriterEdge::MovePast);
        self.writer(20, to == 65_535, WriterEdge::MoveBefore);
        self.writer(0, by == 0xFFFF, WriterEdge::MoveBackByOne);
        self.writer(0, from == SEGMENT, WriterEdge::MoveBack);
        self.writer(0, by == 0, WriterEdge::MoveNowhere);
        self.writer(20, by == 0, WriterEdge::MoveNowherePast);
    }

    /// The edges of a module that was written.
    fn writer_module(&mut self, items: &[Item]) {
        let bits = bits_of(items);
        let padding = bits.next_multiple_of(8) - bits;
        self.writer(0, true, WriterEdge::Padding(padding));
        self.writer(0, items.is_empty(), WriterEdge::NoItems);
        if let (Some(first), Some(last)) = (items.first(), items.last()) {
            self.writer(0, true, WriterEdge::First(first.what));
            self.writer(0, true, WriterEdge::Last(last.what));
        }
        self.writer(0, bits > 8 * LONG, WriterEdge::Long);
        self.writer(0, items.len() == MOST_ITEMS, WriterEdge::MostItems);
    }

    fn writer_buffer(&mut self, bytes: usize) {
        self.writer(0, self.output == bytes, WriterEdge::BufferExact);
        self.writer(0, self.output == bytes + 1, WriterEdge::BufferLonger);
        self.writer(0, self.output == 65_535, WriterEdge::BufferLongest);
        self.writer(13, self.output + 1 == bytes, WriterEdge::BufferShort);
        self.writer(13, self.output == 0, WriterEdge::BufferNone);
    }
}
