//! Relocatable modules (section 10.3) as items and as bytes, written and read
//! bit by bit, apart from the kernel that they are for.

mod ends;
mod items;
mod lists;

pub use ends::{cut, padded};
pub use items::{byte, move_by, set_page, word, Item, What, END, ILLEGAL, RESTORE};
pub use lists::{list, of_list};

/// A stream taken apart.
#[derive(Clone, Debug, PartialEq, Eq)]
pub struct Module {
    /// The items, up to the one that breaks off the reading or to the last
    /// whole one.
    pub items: Vec<Item>,
    /// The bits after them.
    pub rest: Vec<bool>,
}

impl Module {
    /// The items of a stream, whose first bit is bit 7 of its first byte.
    pub fn of(stream: &[u8]) -> Module {
        let bit = |at: usize| stream[at / 8] >> (7 - at % 8) & 1 == 1;
        let bits: Vec<bool> = (0..8 * stream.len()).map(bit).collect();
        Module::of_bits(&bits)
    }

    /// The items of some bits.
    pub fn of_bits(bits: &[bool]) -> Module {
        let (mut items, mut at) = (Vec::new(), 0);
        while let Some(item) = Item::first(&bits[at..]) {
            items.push(item);
            at += item.what.length();
            if item.what.is_last() {
                break;
            }
        }
        let rest = bits[at..].to_vec();
        Module { items, rest }
    }

    /// How many bits the items have.
    pub fn length(&self) -> usize {
        ends::length(&self.items)
    }

    /// How many bits pad the byte that the last item ends in.
    pub fn padding(&self) -> usize {
        self.length().next_multiple_of(8) - self.length()
    }

    /// The stream: items and rest, the last byte filled with zeros.
    pub fn stream(&self) -> Vec<u8> {
        let items = self.items.iter().flat_map(|item| item.bits());
        let bits: Vec<bool> = items.chain(self.rest.iter().copied()).collect();
        let byte = |bits: &[bool]| {
            let bits = bits.iter().copied().chain([false; 8]).take(8);
            bits.fold(0, |byte, bit| byte << 1 | u8::from(bit))
        };
        bits.chunks(8).map(byte).collect()
    }
}

/// The stream of items alone, the last byte filled with zeros.
pub fn stream(items: &[Item]) -> Vec<u8> {
    let module = Module {
        items: items.to_vec(),
        rest: Vec::new(),
    };
    module.stream()
}

#[cfg(test)]
mod tests {
    use super::*;

    #[test]
    fn a_stream_of_each_item_and_back() {
        let streams: [(&[Item], &[u8]); 8] = [
            (&[END], &[0xC0]),
            (&[byte(0x01), END], &[0x00, 0xE0]),
            (&[word(0x1234), END], &[0x82, 0x46, 0x98]),
            (&[set_page(3), END], &[0xA7, 0x80]),
            (&[RESTORE, END], &[0xAE]),
            (&[move_by(0x4000), END], &[0xB4, 0x00, 0x0C]),
            (&[ILLEGAL], &[0xE0]),
            (&[], &[]),
        ];
        for (items, bytes) in streams {
            assert_eq!(stream(items), bytes);
            assert_eq!(Module::of(bytes).items, items);
        }
    }

    #[test]
    fn what_follows_the_items_is_kept() {
        for bytes in [
            &[0xC0, 0xFF][..],
            &[0xC1],
            &[0xFF, 1],
            &[0x00, 0x7F],
            &[0xB4],
        ] {
            assert_eq!(Module::of(bytes).stream(), bytes);
        }
        let padded = Module::of(&[0xC1, 0xFF]);
        assert_eq!((padded.length(), padded.padding()), (3, 5));
        assert_eq!(padded.rest.len(), 13);
        let cut = Module::of(&[0x00, 0x40]);
        assert_eq!((cut.items, cut.rest.len()), (vec![byte(0)], 7));
        let begun = |bits: &[bool]| What::ALL.map(|what| what.may_begin(bits));
        assert_eq!(
            begun(&cut.rest),
            [false, true, false, false, false, false, false]
        );
        assert_eq!(begun(&[true]), [false, true, true, true, true, true, true]);
        assert_eq!(begun(&[]), [true; 7]);
    }

    #[test]
    fn streams_that_end_otherwise() {
        for what in What::ALL {
            for bits in 0..what.length() {
                let cut = Module::of(&cut(&[byte(1)], Item { what, value: 0 }, bits));
                assert_eq!(cut.items[0], byte(1));
                assert!(cut.items[1..].iter().all(|&item| item == RESTORE));
                assert!(cut.rest.len() == bits && what.may_begin(&cut.rest));
            }
        }
        for length in 0..8 {
            let ended = Module::of(&padded(&[byte(1)], &vec![true; length]));
            assert_eq!(ended.items.last(), Some(&END));
            assert_eq!((ended.padding(), ended.rest), (length, vec![true; length]));
        }
    }
}
