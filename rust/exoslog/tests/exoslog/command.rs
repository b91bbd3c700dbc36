//! The command as people run it.

use crate::runs::{run, run_unread, File};
use std::fs;

const EXAMPLE: &str = include_str!("../data/example.words");

#[test]
fn encode_and_decode_over_streams_and_files() {
    let records = run(&["encode"], EXAMPLE.as_bytes());
    assert_eq!((records.status, records.err.as_str()), (0, ""));
    assert_eq!(
        records.out[..10],
        [8, 0, 0, 1, 0x42, 0x2B, 252, 253, 254, 255]
    );
    let words = run(&["decode", "-"], &records.out);
    assert_eq!(words.status, 0);
    let expected = "start 11074 252 253 254 255\nopen 5 0 100 \"VIDEO:\"\nboundary\n\
                    write 5 98 aa55\nread 5 98 2\nread 5 99 2\nclose 5\nboundary\n";
    assert_eq!(words.text(), expected);

    let input = File::new("encode.words", EXAMPLE.as_bytes());
    let output = File::new("encode.out", b"");
    let ran = run(&["encode", "-o", output.name(), input.name()], b"");
    assert_eq!((ran.status, ran.out.len()), (0, 0));
    assert_eq!(fs::read(&output.0).unwrap(), records.out);
    let ran = run(&["decode", output.name(), "--output=-"], b"");
    assert_eq!(ran.text(), expected);
}

/// "The line `6 13 0 0` of 01's listing becomes `6 0 0 1 55`."
#[test]
fn the_listing_of_the_example_is_01s_with_the_line_of_order_2() {
    let records = run(&["encode"], EXAMPLE.as_bytes()).out;
    let mut listing = Vec::new();
    exos_kernel::listing(&records[..], &mut listing).unwrap();
    let expected = "256 0 4 11074\n1 0 0 0\n22 0 255 10958\n8 0 0 2\n6 0 0 2 aa55\n\
                    6 0 0 1 55\n3 0 0 0\n22 0 255 11074\n";
    assert_eq!(String::from_utf8(listing).unwrap(), expected);
}

#[test]
fn mistakes_to_the_letter() {
    let text = "start 11074 252 255\nopen abc 0 100 \"VIDEO:\"\n\twrite 5 98 aa5\n";
    let ran = run(&["encode"], text.as_bytes());
    assert_eq!((ran.status, ran.out.len()), (1, 0));
    assert_eq!(
        ran.err,
        "<stdin>:2:6: expected a channel number 0 to 255, found \"abc\"\n    \
         open abc 0 100 \"VIDEO:\"\n         ^^^\n\
         <stdin>:3:16: expected the second hex digit of a byte, found the end of the line\n     \
         write 5 98 aa5\n                   ^\n"
    );
}

#[test]
fn mistakes_name_the_file_and_end_somewhere() {
    let input = File::new("mistakes.words", "close x\n".repeat(25).as_bytes());
    let ran = run(&["encode", input.name()], b"");
    assert_eq!(ran.status, 1);
    assert_eq!(ran.err.matches("expected a channel number").count(), 20);
    let last = format!("{}: 5 more lines are not right\n", input.name());
    assert!(ran.err.ends_with(&last));
    let output = File::new("mistakes.out", b"as it was");
    run(&["encode", input.name(), "-o", output.name()], b"");
    assert_eq!(fs::read(&output.0).unwrap(), b"as it was");
}

#[test]
fn help_and_version() {
    for (arguments, first) in [
        (&["--help"][..], "exoslog: logs of EXOS calls"),
        (&["-h"], "exoslog: logs of EXOS calls"),
        (&["encode", "--help"], "exoslog encode: a log in words"),
        (&["decode", "-h"], "exoslog decode: event records"),
        (&["map", "--help"], "exoslog map: the RAM after a log"),
        (&["diff", "--help"], "exoslog diff: two listings"),
        (&["audit-log", "-h"], "exoslog audit-log: a log and"),
        (&["module", "--help"], "exoslog module: items in words"),
        (&["--version"], "exoslog 0.1.0\n"),
        (&["-V"], "exoslog 0.1.0\n"),
    ] {
        let ran = run(arguments, b"");
        assert_eq!((ran.status, ran.err.as_str()), (0, ""));
        assert!(ran.text().starts_with(first), "{}", ran.text());
        assert!(ran.text().lines().all(|line| line.len() <= 80));
    }
}

#[test]
fn wrong_uses_end_with_2() {
    for (arguments, said) in [
        (
            &[][..],
            "exoslog: a command is missing\nTry exoslog --help.\n",
        ),
        (
            &["list"],
            "exoslog: unknown command list\nTry exoslog --help.\n",
        ),
        (
            &["encode", "-x"],
            "exoslog: unknown option -x\nTry exoslog encode --help.\n",
        ),
        (
            &["decode", "a", "b"],
            "exoslog: one operand too many: b\nTry exoslog decode --help.\n",
        ),
        (
            &["map", "--at", "x"],
            "exoslog: --at needs a record's number, not x\nTry exoslog map --help.\n",
        ),
        (
            &["map", "--at", "1", "--reply", "1"],
            "exoslog: --at and --reply are given\nTry exoslog map --help.\n",
        ),
        (
            &["decode", "--reply", "-1"],
            "exoslog: --reply needs a record's number, not -1\nTry exoslog decode --help.\n",
        ),
        (
            &["map", "--text", "--svg", "-"],
            "exoslog: --svg and --text are given\nTry exoslog map --help.\n",
        ),
        (
            &["map", "--from", "pictures"],
            "exoslog: --from needs words or records, not pictures\nTry exoslog map --help.\n",
        ),
        (
            &["diff", "a"],
            "exoslog: LISTING2 is missing\nTry exoslog diff --help.\n",
        ),
        (
            &["diff", "-", "-"],
            "exoslog: standard input is given twice\nTry exoslog diff --help.\n",
        ),
        (
            &["audit-log", "a"],
            "exoslog: LISTING is missing\nTry exoslog audit-log --help.\n",
        ),
        (
            &["audit-log", "-", "-"],
            "exoslog: standard input is given twice\nTry exoslog audit-log --help.\n",
        ),
        (
            &["module", "--decode", "--with", "x"],
            "exoslog: --decode and --with are given\nTry exoslog module --help.\n",
        ),
    ] {
        let ran = run(arguments, b"");
        assert_eq!((ran.status, ran.out.len()), (2, 0), "{arguments:?}");
        assert_eq!(ran.err, said);
    }
}

#[test]
fn files_that_cannot_be_read_or_written_end_with_2() {
    let ran = run(&["decode", "no/such/file"], b"");
    assert_eq!(ran.status, 2);
    assert!(ran.err.starts_with("exoslog: cannot read no/such/file: "));
    let ran = run(&["decode", "-o", "no/such/file"], b"");
    assert_eq!(ran.status, 2);
    assert!(ran.err.starts_with("exoslog: cannot write no/such/file: "));
}

#[test]
fn a_map_after_a_record_from_words_and_from_records() {
    let from_words = run(&["map", "--at", "4"], EXAMPLE.as_bytes());
    assert_eq!((from_words.status, from_words.err.as_str()), (0, ""));
    assert!(from_words.text().starts_with(
        "RAM after record 4 of 8\n  write 5 98 aa55\n  0 done, a 0, b 2\n\n\
         R 11074, cold R 11074, T 116, chain 255\n\
         EXOS boundary 10958 of 255, user boundary 0, nothing shared\n"
    ));
    let records = run(&["encode"], EXAMPLE.as_bytes()).out;
    assert_eq!(run(&["map", "--text", "--at=4"], &records), from_words);
}

#[test]
fn the_other_form_of_a_log_is_named() {
    let records = run(&["encode"], EXAMPLE.as_bytes()).out;
    for arguments in [&["encode"][..], &["map", "--from", "words", "-"]] {
        let ran = run(arguments, &records);
        assert_eq!((ran.status, ran.out.len()), (1, 0));
        assert_eq!(
            ran.err,
            "exoslog: <stdin> looks like event records; exoslog decode reads those\n"
        );
    }
    let ran = run(&["decode"], EXAMPLE.as_bytes());
    assert_eq!(
        (ran.status, run(&["encode"], &ran.out).out),
        (0, EXAMPLE.into())
    );
    assert_eq!(
        ran.err,
        "exoslog: <stdin> looks like a log in words; exoslog encode reads those\n"
    );
    let ran = run(&["encode"], b"close \x1b\n");
    assert!(ran
        .err
        .starts_with("<stdin>:1:7: expected a channel number"));
}

#[test]
fn a_map_as_svg() {
    let output = File::new("map.svg", b"");
    let ran = run(&["map", "--svg", output.name()], EXAMPLE.as_bytes());
    assert_eq!((ran.status, ran.out.len()), (0, 0));
    let drawing = fs::read(&output.0).unwrap();
    assert!(drawing.starts_with(b"<?xml"));
    let ran = run(&["map", "--svg", "-"], EXAMPLE.as_bytes());
    assert_eq!(ran.out, drawing);
}

#[test]
fn a_map_past_the_end_of_the_log() {
    let ran = run(&["map", "--at", "9"], EXAMPLE.as_bytes());
    assert_eq!((ran.status, ran.out.len()), (1, 0));
    assert_eq!(ran.err, "exoslog: no record 9: <stdin> has 8 records\n");
}

#[test]
fn a_broken_pipe_ends_quietly() {
    let ran = run_unread(&["decode"], &[0; 100]);
    assert_eq!((ran.status, ran.err.as_str()), (0, ""));
}
