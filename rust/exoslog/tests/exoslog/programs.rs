//! `exoslog module --with`, over programs that do right and that do not.

use crate::runs::{holds, run, run_with, run_with_unread, File, STAND_IN};
use exos_modules::{stream, END, RESTORE};
use exoslog::MOST_ITEMS;
use std::fs;

/// A word at page 1, offset 512, its input and its module.
const WORDS: &[u8] = b"start 1 0x200\nword 1234\n";
const INPUT: [u8; 6] = [1, 0x00, 0x02, 1, 0x34, 0x12];
const MODULE: [u8; 3] = [0x82, 0x46, 0x98];

/// Reads all and gives that module.
const WRITES: &str = "cat >/dev/null; printf '\\202\\106\\230'";

#[test]
fn its_module_is_given() {
    holds(run_with(WRITES, &[], WORDS), 0, &MODULE, "");
    let output = File::new("made.module", b"");
    holds(run_with(WRITES, &["-o", output.name()], WORDS), 0, b"", "");
    assert_eq!(fs::read(&output.0).unwrap(), MODULE);
    holds(run_with_unread(WRITES, WORDS), 0, b"", "");
}

#[test]
fn it_has_the_input_and_what_it_says_is_passed_on() {
    let input = File::new("made.input", b"");
    let keeps = format!("echo said >&2; cat >'{}'; {WRITES}", input.name());
    holds(run_with(&keeps, &[], WORDS), 0, &MODULE, "said\n");
    assert_eq!(fs::read(&input.0).unwrap(), INPUT);
}

#[test]
fn it_is_not_run_where_there_are_mistakes() {
    let ran = run_with("echo said >&2; exit 20", &[], b"word 12345");
    assert_eq!((ran.status, ran.out.len()), (1, 0));
    assert!(ran.err.starts_with("<stdin>:1:6: expected a word"));
}

#[test]
fn a_refusal_with_page_has_its_place() {
    let refuses = "cat >/dev/null; echo 20 PAGE >&2; exit 20";
    let output = File::new("refused.module", b"as it was");
    let text = b"start 0 16382\nrestore bytes 3e 01 c9 # one too many\n";
    holds(
        run_with(refuses, &["-o", output.name()], text),
        20,
        b"",
        "20 PAGE\n\
         <stdin>:2:21: item 4: a byte at offset 16384 stores up to offset 16384, and a page ends \
         with 16383 (exoslog's reading of the page rule)\n    \
         restore bytes 3e 01 c9 # one too many\n                        ^^\n",
    );
    assert_eq!(fs::read(&output.0).unwrap(), b"as it was");
    holds(
        run_with(refuses, &[], WORDS),
        20,
        b"",
        "20 PAGE\nexoslog: by exoslog's reading of the page rule no item is at fault\n",
    );
}

#[test]
fn a_refusal_with_range_has_its_numbers() {
    let moves = "move 0000\n".repeat(26_215);
    holds(
        run_with(
            "cat >/dev/null; echo 13 RANGE >&2; exit 13",
            &[],
            moves.as_bytes(),
        ),
        13,
        b"",
        "13 RANGE\nexoslog: the module would have 65538 bytes, and the program's buffer has 65536\n",
    );
}

#[test]
fn other_ends_are_passed_on() {
    for status in [1, 2, 3, 4, 5, 141, 255] {
        let said = format!("exoslog: {STAND_IN} ended with status {status}: no module\n");
        let ends = format!("{WRITES}; exit {status}");
        holds(run_with(&ends, &[], WORDS), status, b"", &said);
    }
    let said = format!("exoslog: {STAND_IN} was ended by signal 9: no module\n");
    let killed = format!("{WRITES}; kill -9 $$");
    holds(run_with(&killed, &[], WORDS), 137, b"", &said);
}

#[test]
fn a_program_that_is_not_there() {
    let ran = run(&["module", "--with", "no/such/program"], WORDS);
    assert_eq!((ran.status, ran.out.len()), (2, 0));
    let said = "exoslog: cannot run no/such/program: ";
    assert!(ran.err.starts_with(said), "{}", ran.err);
}

#[test]
fn what_is_not_the_module_of_the_items_is_not_written() {
    let said = format!("exoslog: {STAND_IN} is done, but did not give the module of these items\n");
    for does in ["true", "cat", "printf '\\300'", &format!("{WRITES}; echo")] {
        holds(run_with(does, &[], WORDS), 2, b"", &said);
    }
}

/// The pipes between the two hold less than the input, and less than is written
/// here before anything is read.
#[test]
fn a_program_may_write_before_it_reads_or_not_read() {
    let items = [vec![RESTORE; MOST_ITEMS], vec![END]].concat();
    let module = stream(&items);
    let text = "restore\n".repeat(MOST_ITEMS);
    let file = File::new("longest.module", &module);
    let name = file.name();
    for does in [
        format!("head -c 65535 '{name}'; cat >/dev/null; tail -c 1 '{name}'"),
        format!("cat '{name}'"),
    ] {
        holds(run_with(&does, &[], text.as_bytes()), 0, &module, "");
    }
    let said = format!("exoslog: {STAND_IN} writes more than 65536 bytes: this is no module\n");
    let endless = "while echo; do :; done; cat >/dev/null";
    holds(run_with(endless, &[], text.as_bytes()), 2, b"", &said);
}
