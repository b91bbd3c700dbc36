//! `exoslog diff` as auditors run it.

use crate::runs::{run, run_unread, File};

const EXAMPLE: &str = include_str!("../data/example.words");

#[test]
fn listings_that_differ_and_do_not() {
    let one = File::new("one.list", b"256 0 4 11074\n1 0 0 0\n22 0 255 10958\n");
    let two = File::new("two.list", b"256 0 4 11074\n1 0 0 0\n22 0 255 10752\n");
    let log = File::new("diff.words", EXAMPLE.as_bytes());
    let same = run(&["diff", one.name(), one.name(), log.name()], b"");
    assert_eq!((same.status, same.out.len(), same.err.as_str()), (0, 0, ""));
    let ran = run(&["diff", one.name(), two.name(), log.name()], b"");
    assert_eq!((ran.status, ran.err.as_str()), (1, ""));
    let expected = format!(
        "record 3 differs\n  record: boundary\n  {}: 22 0 255 10958\n  {}: 22 0 255 10752\n  \
         b (EXOS boundary): 10958, 10752\n",
        one.name(),
        two.name()
    );
    assert_eq!(ran.text(), expected);
    let piped = run(&["diff", "-", two.name()], b"256 0 4 11074\n");
    assert_eq!(piped.status, 1);
    assert!(piped
        .text()
        .starts_with("record 2 differs\n  <stdin>: ends before"));
    let bad_log = File::new("bad.words", b"close x\n");
    let ran = run(&["diff", one.name(), two.name(), bad_log.name()], b"");
    assert_eq!((ran.status, ran.out.len()), (2, 0));
    assert!(ran.err.contains(":1:7: expected a channel number"));
}

/// A maker's kernel that compares pages grants a buffer four bytes too long.
#[test]
fn a_worked_audit() {
    let log = include_bytes!("../data/audit.words");
    let maker = include_bytes!("../data/maker.list");
    let mut ours = Vec::new();
    exos_kernel::listing(&run(&["encode"], log).out[..], &mut ours).unwrap();
    let ours = File::new("ours.list", &ours);
    let maker = File::new("maker.list", maker);
    let log = File::new("audit.words", log);
    let ran = run(&["diff", ours.name(), maker.name(), log.name()], b"");
    let expected = format!(
        "record 6 differs\n  record: open 5 0 1062 \"VIDEO:\"\n  {}: 1 9 0 0\n  \
         {}: 1 0 0 0\n  answer: 9 ROOM, 0 done\n",
        ours.name(),
        maker.name()
    );
    assert_eq!((ran.status, ran.text()), (1, expected.as_str()));
    let ran = run(&["map", "--at", "5", log.name()], b"");
    let numbers = "R 11074, cold R 11074, T 0, chain 255\n\
                   EXOS boundary 11074 of 255, user boundary 10000 of 255\n";
    assert!(ran.text().contains(numbers));
}

/// A maker's board refuses a read that order 2 has stop at the end.
#[test]
fn a_board_that_refuses_a_read_at_the_end() {
    let mut ours = Vec::new();
    exos_kernel::listing(&run(&["encode"], EXAMPLE.as_bytes()).out[..], &mut ours).unwrap();
    let maker = String::from_utf8(ours.clone()).unwrap();
    let maker = maker.replace("6 0 0 1 55\n", "6 13 0 0\n");
    let ours = File::new("stops.list", &ours);
    let maker = File::new("refuses.list", maker.as_bytes());
    let log = File::new("stops.words", EXAMPLE.as_bytes());
    let ran = run(&["diff", ours.name(), maker.name(), log.name()], b"");
    let expected = format!(
        "record 6 differs\n  record: read 5 99 2\n  {}: 6 0 0 1 55\n  {}: 6 13 0 0\n  \
         answer: 0 done, 13 RANGE\n  b (bytes given): 1, 0\n  bytes: byte 0 is 55, none\n  \
         order 2: read gives RANGE only where the lent output is shorter than what it would give\n",
        ours.name(),
        maker.name()
    );
    assert_eq!((ran.status, ran.text()), (1, expected.as_str()));
}

#[test]
fn a_difference_that_nobody_reads_is_told_by_the_status() {
    let listing = File::new("unread.list", b"3 0 0 0\n");
    let ran = run_unread(&["diff", "-", listing.name()], b"3 3 0 0\n");
    assert_eq!((ran.status, ran.err.as_str()), (1, ""));
    let ran = run_unread(&["diff", "-", listing.name()], b"3 0 0 0\n");
    assert_eq!((ran.status, ran.err.as_str()), (0, ""));
}
