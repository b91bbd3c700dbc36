//! "Reading back gives the same items. Every module the loader accepts is what
//! the writer makes of its items, up to the end item."

use crate::modules::with_user_segment;
use crate::plain_modules::{leaves_page, some_stream};
use crate::writer::write;
use exos_kernel::{list_of, read_module, Item, Refusal};
use exos_modules::{byte, list, move_by, of_list, set_page, stream, word, Module, END, RESTORE};
use exos_random::Random;

/// Any list, many of which leave the page.
fn some_items(random: &mut Random) -> Vec<exos_modules::Item> {
    let mut item = || match random.below(20) {
        0..=6 => byte(random.byte()),
        7..=12 => word(random.word()),
        13 | 14 => set_page(random.below(4) as u8),
        15 | 16 => RESTORE,
        17 => set_page(4),
        _ => move_by(random.word() >> random.below(16)),
    };
    (0..24).map(|_| item()).collect()
}

fn some_start(random: &mut Random) -> (u8, u16) {
    let offset = match random.below(3) {
        0 => random.below(16_385),
        1 => 16_386 - random.below(30),
        _ => random.below(30),
    };
    (random.below(5) as u8, offset as u16)
}

#[test]
fn items_to_a_module_and_back() {
    let mut done = 0;
    for number in 0..4_000 {
        let mut random = Random::new(9, number);
        let (page, offset) = some_start(&mut random);
        let count = random.below(25);
        let items = &some_items(&mut random)[..count];
        let given = list_of(&list(items)).unwrap();
        let ended = [items, &[END]].concat();
        let expected = stream(&ended);
        let is_refused = page > 3 || offset > 16_384 || leaves_page(page, offset, items);
        let written = write(page, offset, &given, expected.len());
        if is_refused {
            assert_eq!(written, Err(Refusal::Page), "{number}");
            continue;
        }
        let module = written.unwrap();
        assert_eq!(module, expected);
        assert_eq!(Module::of(&module).items, ended);
        assert_eq!(read_module(&module), Some((given, module.len())));
        let answer = with_user_segment().load_module(253, page, offset, &module);
        assert_eq!(answer, (0, 0, module.len() as u16));
        done += 1;
    }
    assert!((800..3_200).contains(&done), "{done}");
}

#[test]
fn streams_to_items_and_back() {
    let mut done = 0;
    for number in 0..2_000 {
        let mut random = Random::new(11, number);
        let offset = random.below(16_385);
        let stream = some_stream(&mut random, offset);
        let answer = with_user_segment().load_module(253, 2, offset as u16, &stream);
        let read = read_module(&stream);
        // a module that is refused with PAGE may be none further on
        assert!(read.is_none() || answer.0 != 19, "{number}");
        if answer.0 == 0 {
            let (items, used) = read.unwrap();
            assert_eq!(used, usize::from(answer.2));
            let module = write(2, offset as u16, &items, used);
            assert_eq!(module.unwrap(), stream[..used]);
            done += 1;
        }
    }
    assert!(done > 800, "{done}");
}

#[test]
fn what_is_no_module_is_not_read() {
    let streams: [&[u8]; 6] = [&[], &[0xE0], &[0xC1], &[0x00], &[0x00, 0x40], &[0xFF, 0xC0]];
    for stream in streams {
        assert_eq!(read_module(stream), None, "{stream:?}");
    }
    assert_eq!(read_module(&[0xC0, 0xFF]), Some((vec![], 1)));
}

#[test]
fn lists_of_three_bytes_an_item() {
    let bytes = [
        0, 255, 0, 1, 0x34, 0x12, 2, 3, 0, 2, 0, 1, 3, 0, 0, 4, 0xFF, 0xFF,
    ];
    let items = [
        Item::Byte(255),
        Item::Word(0x1234),
        Item::SetPage(3),
        Item::SetPage(256),
        Item::Restore,
        Item::Move(0xFFFF),
    ];
    assert_eq!(list_of(&bytes), Some(items.to_vec()));
    assert_eq!(list_of(&[]), Some(vec![]));
    for length in 1..bytes.len() {
        let whole = list_of(&bytes[..length]).map(|items| items.len());
        assert_eq!(whole, (length % 3 == 0).then_some(length / 3));
    }
}

#[test]
fn each_tag_with_each_value() {
    for tag in 0..=255 {
        for value in [0, 1, 3, 4, 255, 256, 511, 65_535_u16] {
            let [low, high] = value.to_le_bytes();
            let item = [tag, low, high];
            let is_item = match tag {
                0 => value <= 255,
                3 => value == 0,
                _ => tag <= 4,
            };
            assert_eq!(list_of(&item).is_some(), is_item, "{item:?}");
            assert_eq!(of_list(&item).is_some(), is_item, "{item:?}");
            assert_eq!(
                list_of(&[&[1, 0, 0], &item[..]].concat()).is_some(),
                is_item
            );
        }
    }
}
