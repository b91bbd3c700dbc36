//! What the writer puts into a lent buffer, bit by bit.

use exos_kernel::{write_module, Item, Refusal};
use Item::{Byte, Move, Restore, SetPage, Word};

/// What a lent buffer has before: in turn, so that no byte of a module is left
/// out unseen.
const BEFORE: [u8; 2] = [0xA5, 0x5A];

/// Writes into a buffer of so many bytes, and gives the module. "Either way the
/// buffer stays untouched"; what lies behind a module stays too.
pub fn write(page: u8, offset: u16, items: &[Item], length: usize) -> Result<Vec<u8>, Refusal> {
    let written = BEFORE.map(|before| {
        let mut buffer = vec![before; length];
        let written = write_module(page, offset, items, &mut buffer);
        let end = written.unwrap_or(0);
        assert!(buffer[end..].iter().all(|&byte| byte == before));
        written.map(|end| buffer[..end].to_vec())
    });
    assert_eq!(written[0], written[1]);
    written[0].clone()
}

/// The module of some items that start at 0.
fn written(items: &[Item]) -> Vec<u8> {
    write(0, 0, items, 64).unwrap()
}

#[test]
fn the_examples_to_the_bit() {
    assert_eq!(written(&[]), [0xC0]);
    assert_eq!(written(&[Byte(1)]), [0x00, 0xE0]);
    assert_eq!(written(&[Word(0x1234)]), [0x82, 0x46, 0x98]);
    assert_eq!(written(&[SetPage(3)]), [0xA7, 0x80]);
    assert_eq!(written(&[Restore]), [0xAE]);
    assert_eq!(
        write(0, 0x3000, &[Move(0xD001)], 3).unwrap(),
        [0xBD, 0x00, 0x1C]
    );
}

#[test]
fn items_one_after_the_other() {
    // 0 10100101, 100 1100001100111100, 10100 10, 10101, 1011 0000000000000001, 110
    let items = [Byte(0xA5), Word(0xC33C), SetPage(2), Restore, Move(1)];
    let bits = "010100101100110000110011110010100101010110110000000000000001110";
    let byte = |bits: &str| u8::from_str_radix(bits, 2).unwrap();
    let bits = format!("{bits:0<64}");
    let expected: Vec<u8> = (0..8).map(|at| byte(&bits[8 * at..8 * at + 8])).collect();
    assert_eq!(written(&items), expected);
}

#[test]
fn words_and_moves_are_the_raw_bits() {
    let from = |page, offset| write(page, offset, &[SetPage(3), Word(0xFFFF)], 8);
    assert_eq!(from(0, 0), from(3, 16_382));
    assert_eq!(from(2, 0x1234), Ok(vec![0xA7, 0x3F, 0xFF, 0xF0]));
}

#[test]
fn each_number_of_padding_bits() {
    // a restore has 5 bits, and the end item 3: their sum steps through all rests of 8
    let mut paddings: Vec<usize> = (0..8)
        .map(|restores| {
            let module = written(&vec![Restore; restores]);
            let bits = 5 * restores + 3;
            assert_eq!(module.len(), bits.div_ceil(8));
            let padding = 8 * module.len() - bits;
            let last = module[module.len() - 1];
            assert_eq!(last.trailing_zeros() as usize, padding + 1);
            padding
        })
        .collect();
    paddings.sort();
    assert_eq!(paddings, [0, 1, 2, 3, 4, 5, 6, 7]);
}

#[test]
fn a_buffer_that_is_exact_or_longer() {
    let items = [Byte(1), Byte(2), Word(3)];
    let module = write(0, 0, &items, 5).unwrap();
    assert_eq!(module.len(), 5);
    for longer in [6, 7, 100, 70_000] {
        assert_eq!(write(0, 0, &items, longer).as_ref(), Ok(&module));
    }
}

#[test]
fn a_module_of_more_than_65535_bytes() {
    let items = vec![Restore; 120_000];
    let bytes = (5 * 120_000_usize + 3).div_ceil(8);
    assert_eq!(write(3, 16_384, &items, bytes - 1), Err(Refusal::Range));
    assert_eq!(write(3, 16_384, &items, bytes).unwrap().len(), bytes);
}
