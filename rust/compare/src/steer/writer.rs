//! What the writer is asked: most of it right, the rest at fault in its start, in
//! an item, in its form, or lent too short a buffer.

use super::Steer;
use crate::counter::{Counter, Target};
use crate::protocol::{Request, Writing};
use exos_modules::{list, stream, Item, What, END};

impl Steer<'_> {
    /// A request to the writer.
    pub fn write_module(&mut self) -> Request {
        let (page, offset) = self.module_start(Target::WHOLE);
        let items = self.listed(Counter::start(page, offset));
        let (page, offset) = (page as u8, offset as u16);
        let mut record = Writing {
            page,
            offset,
            list: &list(&items),
        }
        .record();
        if self.random.one_in(16) {
            self.damage_list(&mut record);
        }
        let length = stream(&[&items[..], &[END]].concat()).len();
        let output = match self.random.below(400) {
            0 => usize::from(u16::MAX),
            _ => self.output_for(length),
        };
        Request::to_writer(output, record)
    }

    /// Some items, few of them at fault.
    fn listed(&mut self, counter: Counter) -> Vec<Item> {
        let mut items = match self.random.below(200) {
            0 => self.many_stores(),
            _ => self.items(Target::WHOLE, counter),
        };
        items.retain(|item| !item.what.is_last());
        if self.random.one_in(16) {
            let any = self.random.word();
            let what = What::SetPage;
            let value = self.random.pick(&[4, 5, 255, 256, 259, 65_535, any]);
            let at = self.random.below(items.len() + 1);
            items.insert(at, Item { what, value });
        }
        items
    }

    /// Makes a record's list no list, or cuts it within the start.
    fn damage_list(&mut self, record: &mut Vec<u8>) {
        let some = 1 + self.random.below(2);
        let [tag, low, high] = match self.random.below(8) {
            0 => return record.truncate(2),
            1 => return record.truncate((record.len() - some).max(2)),
            2 => return record.extend(self.random.bytes(some)),
            3 | 4 => [0, self.random.byte(), 1],
            5 => [3, self.random.byte(), self.random.byte()],
            6 => [5, 0, 0],
            _ => [self.random.byte(), self.random.byte(), self.random.byte()],
        };
        let items = record.len() / 3 - 1;
        let at = 3 + 3 * self.random.below(items + 1);
        record.splice(at..at, [tag, low, high]);
    }
}
