//! `exoslog module`: items in words to a module and back.

use crate::logs::{damage, random_items};
use crate::random::Random;
use crate::runs::{holds, run, run_unread, File};
use exos_kernel::Machine;
use exos_modules::{stream, Item, Module, What, END};
use exoslog::{answer_to, encode, item_list, module_words, records};
use std::fs;

const MODULES: usize = 100_000;

/// A word at page 1, offset 512, its input and its module.
const WORDS: &[u8] = b"start 1 0x200 # 5434 is stored\nword 1234\nend\n";
const INPUT: [u8; 6] = [1, 0x00, 0x02, 1, 0x34, 0x12];
const MODULE: [u8; 3] = [0x82, 0x46, 0x98];

/// The program's input for items from page 0, offset 0.
fn input_of(items: &[Item]) -> Vec<u8> {
    let tag = |what| What::LEGAL.iter().position(|legal| *legal == what).unwrap();
    let three = |item: &Item| {
        let [low, high] = item.value.to_le_bytes();
        [tag(item.what) as u8, low, high]
    };
    let items = items.iter().flat_map(three);
    [0, 0, 0].into_iter().chain(items).collect()
}

/// The bytes of a module of some items in words.
fn module_of(items: &str) -> Vec<u8> {
    let line = format!("load module 253 0 0 {items}end");
    encode(line.as_bytes()).unwrap().split_off(8)
}

#[test]
fn random_modules_to_words_and_back() {
    let mut random = Random::new(12, 0);
    let mut whole = 0;
    for _ in 0..MODULES {
        let mut module = module_of(&random_items(&mut random));
        damage(&mut random, &mut module);
        let Ok(text) = module_words(&module) else {
            continue;
        };
        let mut items = Module::of(&module).items;
        assert!(module.starts_with(&stream(&items)), "{text}");
        assert_eq!(items.pop(), Some(END));
        let list = item_list(text.as_bytes()).unwrap();
        assert_eq!(list.input(), input_of(&items), "{text}");
        let used = list.module_length();
        assert!(list.is_module(&module[..used]), "{text}");
        assert_eq!(text.contains(" behind the end item"), used < module.len());
        whole += 1;
    }
    assert!((MODULES / 4..MODULES).contains(&whole), "{whole}");
}

/// The page rule refuses what the kernel answers PAGE to, and nothing else.
#[test]
fn the_page_rule_is_the_kernels() {
    let mut random = Random::new(13, 0);
    let mut machine = Machine::default();
    let start = encode(b"start 11074 252 253 254 255\nallocate user").unwrap();
    for record in records(&start) {
        answer_to(&mut machine, record);
    }
    let mut met = [0; 2];
    for _ in 0..MODULES {
        let offset = random.pick(&[0, 1, 256, 16_368, 16_380, 16_383, 16_384]);
        let (page, items) = (random.below(4), random_items(&mut random));
        let text = format!("start {page} {offset}\n{items}");
        let list = item_list(text.as_bytes()).unwrap();
        let log = encode(format!("load module 253 {page} {offset} {items}end").as_bytes()).unwrap();
        let reply = answer_to(&mut machine, records(&log).next().unwrap()).unwrap();
        let is_fault = list.page_fault().is_some();
        assert_eq!(reply.number, if is_fault { 20 } else { 0 }, "{text}");
        met[usize::from(is_fault)] += 1;
    }
    assert!(met.iter().all(|met| *met > MODULES / 10), "{met:?}");
}

#[test]
fn words_to_the_programs_input() {
    holds(run(&["module"], WORDS), 0, &INPUT, "");
    let words = File::new("module.words", WORDS);
    let output = File::new("module.items", b"");
    holds(
        run(&["module", words.name(), "-o", output.name()], b""),
        0,
        b"",
        "",
    );
    assert_eq!(fs::read(&output.0).unwrap(), INPUT);
    let ran = run_unread(&["module"], WORDS);
    assert_eq!((ran.status, ran.err.as_str()), (0, ""));
}

#[test]
fn mistakes_to_the_letter() {
    let output = File::new("module-mistakes.items", b"as it was");
    let text = b"start 0 0\nbytes 3e 0\n\tpage 65536\n";
    holds(
        run(&["module", "-o", output.name()], text),
        1,
        b"",
        "<stdin>:2:11: expected the second hex digit of a byte, found the end of the line\n    \
         bytes 3e 0\n              ^\n\
         <stdin>:3:7: expected a page 0 to 65535, found \"65536\"\n     \
         page 65536\n          ^^^^^\n",
    );
    assert_eq!(fs::read(&output.0).unwrap(), b"as it was");
}

#[test]
fn a_module_to_words() {
    holds(
        run(&["module", "--decode"], &MODULE),
        0,
        b"word 1234\nend\n",
        "",
    );
    let output = File::new("module-decoded.words", b"as it was");
    holds(
        run(&["module", "--decode", "-o", output.name()], &[0x00, 0xE8]),
        1,
        b"",
        "<stdin>: byte 1 (from 0), bit 3: item 2, the end item, has padding that is not zero\n",
    );
    assert_eq!(fs::read(&output.0).unwrap(), b"as it was");
}

#[test]
fn the_other_form_is_named() {
    holds(
        run(&["module"], &MODULE),
        1,
        b"",
        "exoslog: <stdin> looks like a module; exoslog module --decode reads those\n",
    );
    holds(
        run(&["module"], &[1, 0, 2, 1, 0x34, 0x12]),
        1,
        b"",
        "exoslog: <stdin> looks like a start and a list of items; exos-module reads those\n",
    );
    holds(
        run(&["module"], &[2, 0, 20, 0]),
        1,
        b"",
        "exoslog: <stdin> looks like event records; exoslog decode reads those\n",
    );
    let ran = run(&["module", "--decode"], WORDS);
    assert_eq!((ran.status, ran.out.len()), (1, 0));
    let hint = "exoslog: <stdin> looks like items in words; exoslog module reads those\n";
    assert!(ran.err.starts_with(hint), "{}", ran.err);
}
