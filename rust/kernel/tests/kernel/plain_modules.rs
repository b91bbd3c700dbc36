//! Modules in the plain model: all stores are found first, then made one by
//! one, for "condition 3 reads a load as one user store per byte".

use crate::machine::Answer;
use crate::model::Model;
use exos_modules::{byte, move_by, set_page, stream, word, Item, Module, What};
use exos_modules::{END, ILLEGAL, RESTORE};
use exos_random::Random;

/// A page's length.
const SIZE: usize = 16_384;

/// Bytes to store, each with its offset.
type Stores = Vec<(usize, u8)>;

/// The location counter, and the page to restore.
struct Counter {
    start_page: usize,
    page: usize,
    offset: usize,
}

impl Counter {
    /// The bytes that an item stores; none where it leaves the page.
    fn take(&mut self, item: Item) -> Option<Stores> {
        let value = usize::from(item.value);
        let bytes = match item.what {
            What::Byte => vec![value],
            What::Word => {
                let sum = (value + self.page * SIZE + self.offset) % 65_536;
                vec![sum % 256, sum / 256]
            }
            _ => vec![],
        };
        match item.what {
            What::SetPage => self.page = value,
            What::Restore => self.page = self.start_page,
            What::Move => {
                self.offset = (self.offset + value) % 65_536;
                (self.offset < SIZE).then_some(())?;
            }
            _ => {}
        }
        let first = self.offset;
        self.offset += bytes.len();
        (self.offset <= SIZE).then_some(())?;
        Some(
            (first..)
                .zip(bytes.iter().map(|&byte| byte as u8))
                .collect(),
        )
    }
}

/// Whether an item sets a page above 3, or one leaves the page.
pub fn leaves_page(page: u8, offset: u16, items: &[Item]) -> bool {
    let mut counter = Counter {
        start_page: page.into(),
        page: page.into(),
        offset: offset.into(),
    };
    let mut is_within = |&item: &Item| {
        (item.what != What::SetPage || item.value < 4) && counter.take(item).is_some()
    };
    !items.iter().all(&mut is_within)
}

impl Model {
    pub fn load_module(
        &mut self,
        segment: u8,
        page: usize,
        offset: usize,
        stream: &[u8],
    ) -> Answer {
        match self.stores(segment, page, offset, stream) {
            Ok((stores, used)) => {
                for (at, byte) in stores {
                    assert_eq!(self.store(segment, at, &[byte]), (0, 0, 1));
                }
                (0, 0, used)
            }
            Err(refusal) => (refusal, 0, 0),
        }
    }

    /// The stores of a module and the bytes that it uses, or the refusal.
    fn stores(
        &self,
        segment: u8,
        page: usize,
        offset: usize,
        stream: &[u8],
    ) -> Result<(Stores, u16), u8> {
        if page > 3 || offset > SIZE {
            return Err(2);
        }
        let end = self.users(segment).ok_or(11)?;
        let module = Module::of(stream);
        let mut counter = Counter {
            start_page: page,
            page,
            offset,
        };
        let mut all = vec![];
        for &item in &module.items {
            let padding = module.rest.iter().take(module.padding());
            match item.what {
                What::End if !padding.copied().any(|bit| bit) => {
                    return Ok((all, module.length().div_ceil(8) as u16));
                }
                What::End | What::Illegal => return Err(19),
                _ => {}
            }
            let stores = counter.take(item).ok_or(20)?;
            if stores.iter().any(|&(at, _)| at >= end) {
                return Err(13);
            }
            if stores.iter().any(|&(at, _)| self.is_guarded(segment, at)) {
                return Err(14);
            }
            all.extend(stores);
        }
        Err(19)
    }
}

/// A module, mostly right; moves go anywhere before and little beyond.
pub fn some_stream(random: &mut Random, offset: usize) -> Vec<u8> {
    let mut items = vec![];
    for _ in 0..random.below(12) {
        let anywhere = move_by(random.word());
        items.push(match random.below(24) {
            0..=9 => byte(random.byte()),
            10..=17 => word(random.word()),
            18 | 19 => set_page(random.below(4) as u8),
            20 | 21 => RESTORE,
            22 => move_by((random.below(24) as u16).wrapping_sub(random.below(offset + 12) as u16)),
            _ => random.pick(&[anywhere, END, ILLEGAL]),
        });
    }
    items.push(END);
    let mut stream = stream(&items);
    if random.one_in(10) {
        stream.truncate(random.below(stream.len() + 1));
    }
    if random.one_in(10) {
        stream.push(random.byte());
    }
    if let Some(last) = stream.last_mut().filter(|_| random.one_in(10)) {
        *last |= 1;
    }
    stream
}
