//! Makers' logs: made of logs and listings, in words, and at their numbers.

use crate::logs::{damage, random_reads};
use crate::random::Random;
use crate::round_trips::check;
use crate::runs::{holds, run, run_unread, File};
use exos_kernel::{Verdict, Word};
use exoslog::{audit_log, decode, decode_reply, diff, encode, map, records, svg, terminal};
use exoslog::{At, Listing, Log, NoRecord, Record, ReplyRecord, REPLY};
use std::fs;
use std::path::{Path, PathBuf};

const LOGS: usize = 2_000;

const WORDS: &[u8] = include_bytes!("../data/audit.words");
const LIST: &[u8] = include_bytes!("../data/maker.list");

fn listing_of(log: &[u8]) -> Vec<u8> {
    let mut listing = Vec::new();
    exos_kernel::listing(log, &mut listing).unwrap();
    listing
}

fn listing(text: &[u8]) -> Listing<'_> {
    Listing { name: "list", text }
}

/// A log and the maker's log of it and its own listing.
fn random_makers(random: &mut Random) -> (Vec<u8>, Vec<u8>) {
    let log = random_reads(random);
    let made = audit_log(&log, listing(&listing_of(&log))).unwrap();
    (log, made)
}

/// The line of a listing that an event and its reply are.
fn line(event: Record, reply: Record) -> String {
    let (Record::Whole { kind, .. }, Record::Whole { body, .. }) = (event, reply) else {
        panic!("a bad record");
    };
    let ReplyRecord {
        answer,
        a,
        b,
        bytes,
    } = ReplyRecord::read(body).unwrap();
    let blank = if bytes.is_empty() { "" } else { " " };
    format!("{kind} {answer} {a} {b}{blank}{}\n", exoslog::hex(bytes))
}

#[test]
fn a_makers_log_has_the_events_and_the_listing() {
    let mut random = Random::new(14, 0);
    let mut with_bytes = 0;
    for _ in 0..LOGS {
        let (log, made) = random_makers(&mut random);
        check(&made);
        assert_eq!(exos_kernel::audit(&made[..]).unwrap(), Verdict::Ok);
        let read = Log::of(&made);
        assert_eq!(read.cut(), None);
        assert!(records(&log).eq(read.asked().map(|asked| asked.event)));
        let lines = read.asked();
        let lines = lines.map(|asked| line(asked.event, asked.reply.unwrap()));
        let lines: String = lines.collect();
        assert_eq!(lines.as_bytes(), listing_of(&log));
        with_bytes += lines
            .lines()
            .filter(|line| line.split(' ').count() == 5)
            .count();
    }
    assert!(with_bytes > LOGS, "{with_bytes}");
}

/// A maker's log in words is the log's words, with a reply behind each.
#[test]
fn events_in_words_are_those_of_the_log() {
    let mut random = Random::new(15, 0);
    for _ in 0..LOGS {
        let (log, made) = random_makers(&mut random);
        let text = decode(&made);
        let events = text.lines().filter(|line| !line.starts_with("  reply "));
        let events: String = events.map(|line| format!("{line}\n")).collect();
        assert_eq!(events, decode(&log));
    }
}

#[test]
fn the_ram_at_a_number_is_that_before_its_record() {
    let mut random = Random::new(16, 0);
    for _ in 0..LOGS / 20 {
        let (log, made) = random_makers(&mut random);
        for row in 0..records(&log).count() {
            let before = map(&log, At::After(row)).unwrap().ram;
            let at = |at| map(&made, at).unwrap();
            assert_eq!(at(At::After(row)).ram, before);
            let event = at(At::Reply(2 * row));
            assert_eq!(event, at(At::Reply(2 * row + 1)));
            assert_eq!(event.ram, before);
            let after = at(At::After(row + 1));
            assert_eq!(event.lines, after.lines);
            assert_eq!(after.ram, map(&log, At::After(row + 1)).unwrap().ram);
        }
        assert_eq!(
            map(&made, At::End).unwrap().ram,
            map(&log, At::End).unwrap().ram
        );
    }
}

/// A record more, a record less, or other bytes: everything can still be asked.
#[test]
fn damaged_logs_are_read_without_a_pause() {
    let mut random = Random::new(17, 0);
    let mut cut = 0;
    for _ in 0..LOGS {
        let (log, mut made) = random_makers(&mut random);
        if random.one_in(2) {
            made = with_a_record_lost_or_doubled(&mut random, &made);
        }
        damage(&mut random, &mut made);
        check(&made);
        cut += usize::from(is_cut_where_an_audit_says(&made));
        let most = records(&made).count() + 3;
        for number in [random.below(most), most, usize::MAX] {
            look_up(&made, number);
        }
        let (ours, theirs) = (listing_of(&log), listing_of(&made));
        diff(listing(&ours), listing(&theirs), Some(&made));
        let _ = audit_log(&made, listing(&ours));
        let _ = audit_log(&log, listing(&made));
    }
    assert!((LOGS / 4..LOGS).contains(&cut), "{cut}");
}

#[test]
fn any_bytes_can_be_asked() {
    let mut random = Random::new(18, 0);
    for _ in 0..LOGS {
        let length = random.below(64);
        let mut bytes = random.bytes(length);
        if random.one_in(2) {
            bytes.splice(..0, *b"\x02\x00\x14\x00\x06\x00\x00\x02\x01\x00\x00\x00");
        }
        is_cut_where_an_audit_says(&bytes);
        for number in 0..6 {
            look_up(&bytes, number);
        }
        let listed = listing_of(&bytes);
        let _ = audit_log(&bytes, listing(&listed));
        let _ = audit_log(&bytes, listing(&bytes));
    }
}

/// Whether an audit says `cut`, and at the same number; the number of any fault
/// can be looked up, but in an empty log.
fn is_cut_where_an_audit_says(log: &[u8]) -> bool {
    let cut = Log::makers(log).cut().map(|cut| cut.number as u64);
    match exos_kernel::audit(log).unwrap() {
        Verdict::Ok => assert_eq!(cut, None),
        Verdict::Fault { record, word } => {
            assert!(log.is_empty() || decode_reply(log, record as usize).is_ok());
            match word {
                Word::Cut => assert_eq!(cut, Some(record)),
                Word::Start => assert_eq!(record, 0),
                _ => assert!(cut.is_none_or(|cut| cut > record)),
            }
            return word == Word::Cut;
        }
    }
    false
}

fn with_a_record_lost_or_doubled(random: &mut Random, log: &[u8]) -> Vec<u8> {
    let at = random.below(records(log).count());
    let copies = random.pick(&[0, 2]);
    let mut text = String::new();
    for (number, line) in decode(log).lines().enumerate() {
        let line = format!("{line}\n");
        text.push_str(&line.repeat(if number == at { copies } else { 1 }));
    }
    encode(text.as_bytes()).unwrap()
}

/// What the commands show at a number: its record in words and as a picture, or
/// in both that there is none.
fn look_up(log: &[u8], number: usize) {
    let words = decode_reply(log, number);
    let picture = map(log, At::Reply(number));
    match (words, picture) {
        (Ok(words), Ok(picture)) => {
            let record = number / 2 + 1;
            let (event, reply) = (2 * record - 2, 2 * record - 1);
            let name = format!("record {record} (event {event}, reply {reply})");
            assert!(words.starts_with(&format!("# {name}\n")), "{words}");
            let title = format!("RAM before {name} of ");
            assert!(picture.title.starts_with(&title), "{}", picture.title);
            let text = terminal(&picture);
            assert!(
                text.lines().all(|line| line.chars().count() <= 80),
                "{text}"
            );
            assert!(svg(&picture).ends_with("</svg>\n"));
        }
        (Err(words), Err(picture)) => assert_eq!(words, picture),
        (words, picture) => panic!("{words:?} {picture:?}"),
    }
    let _: Result<_, NoRecord> = map(log, At::After(number));
}

/// The files of the folder logs that end so, by their names.
fn shipped(end: &str) -> Vec<PathBuf> {
    let folder = Path::new(env!("CARGO_MANIFEST_DIR")).join("../../logs");
    let files = fs::read_dir(folder).unwrap();
    let files = files.map(|file| file.unwrap().path());
    files
        .filter(|file| file.extension().is_some_and(|is| is == end))
        .collect()
}

#[test]
fn the_logs_that_ship() {
    let logs = [shipped("log"), shipped("maker")].concat();
    assert!(logs.len() > 20);
    for log in logs {
        check(&fs::read(log).unwrap());
    }
}

/// The number of each verdict shows its record, and `cut` why it is one.
#[test]
fn the_verdicts_that_ship() {
    let makers = shipped("maker");
    assert!(makers.iter().any(|file| file.ends_with("four-bytes.maker")));
    for file in makers {
        let log = fs::read(&file).unwrap();
        let verdict = fs::read_to_string(file.with_extension("verdict")).unwrap();
        assert_eq!(
            exos_kernel::audit(&log[..]).unwrap().to_string(),
            verdict.trim_end()
        );
        is_cut_where_an_audit_says(&log);
        if let Some((number, word)) = verdict.trim_end().split_once(' ') {
            let words = decode_reply(&log, number.parse().unwrap()).unwrap();
            assert_eq!(
                words.contains(&format!("\n# {number} cut: ")),
                word == "cut"
            );
            look_up(&log, number.parse().unwrap());
        }
    }
}

/// The maker's log that ships is made of the words and the listing here.
#[test]
fn four_bytes_is_the_worked_audit() {
    let file = shipped("maker")
        .into_iter()
        .find(|file| file.ends_with("four-bytes.maker"));
    let made = audit_log(&encode(WORDS).unwrap(), listing(LIST)).unwrap();
    assert_eq!(fs::read(file.unwrap()).unwrap(), made);
}

/// The customer's case: a board that grants four bytes too many.
#[test]
fn a_worked_audit() {
    let list = File::new("four-bytes.list", LIST);
    let made = File::new("four-bytes.maker", b"");
    let arguments = ["audit-log", "-", list.name(), "-o", made.name()];
    holds(run(&arguments, WORDS), 0, b"", "");
    let records = run(&["encode"], WORDS).out;
    assert_eq!(
        run(&["audit-log", "-", list.name()], &records).out,
        fs::read(&made.0).unwrap()
    );

    let words =
        b"# record 6 (event 10, reply 11)\nopen 5 0 1062 \"VIDEO:\"\n  reply 0 0 0 # 0 done\n";
    for number in ["10", "11"] {
        holds(
            run(&["decode", "--reply", number, made.name()], b""),
            0,
            words,
            "",
        );
        let map = run(&["map", "--reply", number, made.name()], b"");
        let head = "RAM before record 6 (event 10, reply 11) of 6\n  open 5 0 1062 \"VIDEO:\"\n  \
                    the Rust kernel's answer: 9 ROOM, a 0, b 0\n  \
                    the log's reply: 0 done, a 0, b 0\n\n\
                    R 11074, cold R 11074, T 0, chain 255\n\
                    EXOS boundary 11074 of 255, user boundary 10000 of 255\n";
        assert!(map.text().starts_with(head), "{}", map.text());
        let before = run(&["map", "--at", "5", made.name()], b"");
        let ram = |text: &str| text.split_once("\n\n").unwrap().1.to_string();
        assert_eq!(ram(map.text()), ram(before.text()));
    }
}

#[test]
fn a_makers_log_in_words_is_one_too() {
    let list = File::new("words.list", LIST);
    let made = run(&["audit-log", "-", list.name()], WORDS).out;
    let words = run(&["decode"], &made);
    assert!(words.text().starts_with(
        "start 11074 252 253 254 255\n  reply 0 4 11074 # 0 done\n\
         allocate user\n  reply 0 253 16384 # 0 done\n"
    ));
    assert_eq!(run(&["encode"], &words.out).out, made);
    let map = |input: &[u8]| run(&["map", "--reply", "11"], input);
    assert_eq!(map(&words.out), map(&made));
}

#[test]
fn mismatches_to_the_letter() {
    let list = File::new(
        "mismatches.list",
        b"256 0 4 11074\n24 0 253 16384\n24 0 256 16384\nbad\n",
    );
    let name = list.name();
    let output = File::new("mismatches.maker", b"as it was");
    holds(
        run(&["audit-log", "-", name, "-o", output.name()], WORDS),
        1,
        b"",
        &format!(
            "{name}:5: record 5 has no line: the log has 6 records, and the listing 4 lines\n\
             {name}:3: a is 256, and a reply has room for 0 to 255\n\
             {name}:4: bad: no reply can say this\n"
        ),
    );
    assert_eq!(fs::read(&output.0).unwrap(), b"as it was");
    let long = File::new("long.list", "x\n".repeat(25).as_bytes());
    let ran = run(
        &["audit-log", "-", long.name()],
        "status\n".repeat(25).as_bytes(),
    );
    assert_eq!(ran.status, 1);
    assert_eq!(ran.err.matches("no line of a listing").count(), 20);
    let last = format!("{}: 5 more lines are not right\n", long.name());
    assert!(ran.err.ends_with(&last), "{}", ran.err);
}

/// "Reads and loads above 4,090 bytes are RANGE", and the listing gives them.
#[test]
fn an_audit_lends_less_than_a_listing() {
    let text = "start 11074 252 253 254 255\nuser load 252 0 4090\nuser load 252 0 4096\n";
    let records = run(&["encode"], text.as_bytes()).out;
    let list = File::new("4096.list", &listing_of(&records));
    let ran = run(&["audit-log", "-", list.name()], &records);
    assert_eq!((ran.status, ran.out.len()), (1, 0));
    let said = "4096 bytes, and b is 4096: an audit lends 4090, and answers 13 RANGE to more";
    assert_eq!(ran.err, format!("{}:3: {said}\n", list.name()));
    let text = "start 11074 252 253 254 255\nreply 0 4 11074\nuser load 252 0 4096\nreply 13 0 0\n";
    let ran = run(&["map", "--reply", "3"], text.as_bytes());
    assert!(ran
        .text()
        .contains("kernel's answer: 13 RANGE, a 0, b 0\n  the log's reply: 13 RANGE, a 0, b 0\n"));
}

#[test]
fn what_is_no_log_of_events() {
    let list = File::new("events.list", LIST);
    let ran = run(&["audit-log", "-", list.name()], b"status\nreply 1 0 0\n");
    let said = "exoslog: <stdin> is a maker's log: its events have replies\n";
    holds(ran, 1, b"", said);
    let ran = run(&["audit-log", "-", list.name()], b"close x\n");
    assert_eq!((ran.status, ran.out.len()), (1, 0));
    assert!(ran
        .err
        .starts_with("<stdin>:1:7: expected a channel number"));
    let ran = run(&["audit-log", "no/such/log", list.name()], b"");
    assert_eq!(ran.status, 2);
    assert!(ran.err.starts_with("exoslog: cannot read no/such/log: "));
    let ran = run_unread(&["audit-log", "-", list.name()], WORDS);
    assert_eq!((ran.status, ran.err.as_str()), (0, ""));
}

#[test]
fn numbers_that_an_audit_does_not_reach() {
    let makers = b"status\nreply 1 0 0\nstatus\n";
    let makers = run(&["encode"], makers).out;
    for command in ["decode", "map"] {
        holds(
            run(&[command, "--reply", "4"], &makers),
            1,
            b"",
            "exoslog: no record 3 (event 4, reply 5): an audit of <stdin> goes no further than \
             3 cut: the log ends where a reply is due\n",
        );
        holds(
            run(&[command, "--reply=2"], &makers[..12]),
            1,
            b"",
            "exoslog: no record 2 (event 2, reply 3): <stdin> has 1 record\n",
        );
    }
    let missing = run(&["decode", "--reply", "3"], &makers);
    let words =
        "# record 2 (event 2, reply 3)\nstatus\n# 3 cut: the log ends where a reply is due\n";
    assert_eq!(missing.text(), words);
}

#[test]
fn a_makers_log_beside_two_listings() {
    let ours = File::new(
        "ours-of-six.list",
        &listing_of(&run(&["encode"], WORDS).out),
    );
    let theirs = File::new("theirs-of-six.list", LIST);
    let made = run(&["audit-log", "-", theirs.name()], WORDS).out;
    let ran = run(&["diff", ours.name(), theirs.name(), "-"], &made);
    let expected = format!(
        "record 6 (event 10, reply 11) differs\n  record: open 5 0 1062 \"VIDEO:\"\n  \
         {}: 1 9 0 0\n  {}: 1 0 0 0\n  answer: 9 ROOM, 0 done\n",
        ours.name(),
        theirs.name()
    );
    assert_eq!((ran.status, ran.text()), (1, expected.as_str()));
}

/// In a log of events kind 512 is unknown, as any other that has no call.
#[test]
fn kind_512_in_a_log_of_events() {
    let text = "start 11074 252 253 254 255\nboundary\nreply 0 255 11074\n";
    let log = encode(text.as_bytes()).unwrap();
    assert!(matches!(
        records(&log).nth(2),
        Some(Record::Whole { kind: REPLY, .. })
    ));
    assert!(listing_of(&log).ends_with(b"\n512 2 0 0\n"));
    let map = run(&["map"], text.as_bytes());
    assert!(
        map.text().starts_with("RAM after record 3 of 3\n"),
        "{}",
        map.text()
    );
    assert!(
        map.text().contains("\n  2 CALL, a 0, b 0\n"),
        "{}",
        map.text()
    );
}
