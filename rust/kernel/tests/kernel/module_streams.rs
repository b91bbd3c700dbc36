//! "MODULE for an illegal item, input that runs out or bad padding."

use crate::machine::Answer;
use crate::modules::with_user_segment;
use exos_modules::{byte, cut, move_by, padded, set_page, stream, word, END, ILLEGAL, RESTORE};

const MODULE: Answer = (19, 0, 0);

#[test]
fn an_illegal_item() {
    let mut machine = with_user_segment();
    for restores in 0..8 {
        let mut items = vec![RESTORE; restores];
        items.extend([ILLEGAL, END]);
        let stream = stream(&items);
        assert_eq!(machine.load_module(253, 0, 0, &stream), MODULE);
    }
}

#[test]
fn no_end_item() {
    let mut machine = with_user_segment();
    assert_eq!(machine.load_module(253, 0, 0, &[]), MODULE);
    let whole = stream(&[byte(1); 8]);
    assert_eq!(whole.len(), 9);
    assert_eq!(machine.load_module(253, 0, 0, &whole), MODULE);
    let ended = [&whole[..], &[0xC0]].concat();
    assert_eq!(machine.load_module(253, 0, 0, &ended), (0, 0, 10));
}

#[test]
fn cut_after_each_bit_of_each_item() {
    let mut machine = with_user_segment();
    let items = [
        byte(0xA5),
        word(0xC3A5),
        set_page(3),
        RESTORE,
        move_by(0),
        END,
    ];
    for item in items {
        for bits in 0..item.what.length() {
            let stream = cut(&[byte(1)], item, bits);
            assert_eq!(machine.load_module(253, 0, 0, &stream), MODULE);
        }
    }
    let whole = stream(&items);
    let done = (0, 0, whole.len() as u16);
    assert_eq!(machine.load_module(253, 0, 0, &whole), done);
}

#[test]
fn each_bit_of_the_padding() {
    let mut machine = with_user_segment();
    for length in 0..8 {
        for wrong in 0..length {
            let padding: Vec<bool> = (0..length).map(|bit| bit == wrong).collect();
            let stream = padded(&[byte(1)], &padding);
            assert_eq!(machine.load_module(253, 0, 0, &stream), MODULE);
        }
        let stream = padded(&[byte(1)], &vec![false; length]);
        let done = (0, 0, stream.len() as u16);
        assert_eq!(machine.load_module(253, 0, 0, &stream), done);
    }
}
