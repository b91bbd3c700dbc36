//! Order 13's "this leaves no mark", for what follows too: opens, each with its
//! close, are put into logs, and the replies to all else are held against those to
//! the log without them, of the proved program and of the independent kernel: the
//! same, but for what loads give of bytes that a record lay on.

use exos_compare::cases::played;
use exos_compare::machine;
use exos_compare::program::{find_program, Answerer, Program};
use exos_compare::protocol::{digest, tables_of, Case, Reply, Request, IMAGE, UNTOUCHED};
use exoslog::{encode, records, Record};

/// The lengths n of the buffers that are opened and closed again, and the strings
/// that name their devices. Where there is no room or no default, both calls are
/// refused, and that leaves no mark either.
const LENGTHS: [u16; 8] = [0, 1, 100, 240, 241, 5_000, 20_000, 65_535];
const NAMES: [&str; 5] = ["VIDEO:", "net-5:", "-3:", "", "Keyboard7:a.b"];
/// The output that is lent with the records of logs in words.
const OUTPUT: usize = 300;

/// A pair to put in before a request: n and string of its open.
type Pair = Option<(u16, &'static str)>;

/// What came of the pairs that were put in.
#[derive(Clone, Copy, Debug, Default)]
struct Tally {
    /// Refused.
    refused: usize,
    /// Done on places that were zero.
    on_zero: usize,
    /// Done on places that were not.
    on_bytes: usize,
}

impl Tally {
    fn add(&mut self, other: Tally) {
        self.refused += other.refused;
        self.on_zero += other.on_zero;
        self.on_bytes += other.on_bytes;
    }
}

/// The replies of a side to a case.
type Side<'a> = &'a mut dyn FnMut(&Case) -> Vec<Reply>;

/// Calls a function with each of the two sides.
fn on_both_sides(mut check: impl FnMut(Side)) {
    let path = find_program().unwrap_or_else(|error| panic!("{error}"));
    let mut program = Program::at(&path);
    check(&mut |case| program.replies(case).expect("a started program").given);
    check(&mut machine::replies);
}

/// A log in words, from no tables and with the RAM of its start.
fn log(words: &str) -> Case {
    let log = encode(words.as_bytes()).unwrap_or_else(|mistake| panic!("{mistake:?}"));
    let requests: Vec<_> = records(&log)
        .map(|record| match record {
            Record::Whole { kind, body } => Request::new(OUTPUT, kind, body),
            other => panic!("{other:?}"),
        })
        .collect();
    let segments = requests[0].record.len() - 4;
    Case {
        image: [0; IMAGE],
        ram_length: 16_384 * segments as u32,
        seed: 1,
        requests,
    }
}

/// A channel that is not open in a case and of which no record speaks.
fn channel_for(case: &Case) -> u8 {
    let tables = tables_of(&case.image);
    let is_named = |&channel: &u8| {
        let mut requests = case.requests.iter();
        let mut rows = tables.channels.iter();
        requests.any(|request| request.channel_lent() == channel)
            || rows.any(|row| row.number == channel)
    };
    let mut channels = (0..255).rev().filter(|channel| !is_named(channel));
    channels.next().expect("a channel that is left")
}

/// A case with pairs put in.
fn with_pairs(case: &Case, pairs: &[Pair]) -> Case {
    let channel = channel_for(case);
    let requests = case.requests.iter().zip(pairs).flat_map(|(request, pair)| {
        let pair = pair.map(|(n, name)| {
            let body = [&[channel, 0], &n.to_le_bytes()[..], name.as_bytes()].concat();
            [Request::new(0, 1, &body), Request::new(0, 3, &[channel])]
        });
        pair.into_iter().flatten().chain([request.clone()])
    });
    Case {
        requests: requests.collect(),
        ..case.clone()
    }
}

/// A reply but for the RAM.
fn but_for_ram(reply: Reply) -> Reply {
    Reply { ram: 0, ..reply }
}

/// A reply but for what is loaded of the RAM.
fn but_for_loads(request: &Request, reply: Reply) -> Reply {
    let is_load = request.kind() == Some(258);
    Reply {
        output: if is_load { 0 } else { reply.output },
        ..reply
    }
}

/// Holds a side's replies to a case with pairs against those without. Once a pair
/// lay on bytes that were not zero, the RAM is no longer held, nor what loads give
/// but for the next call's.
fn check(side: Side, case: &Case, without: &[Reply], pairs: &[Pair]) -> Tally {
    let with = side(&with_pairs(case, pairs));
    let put_in = pairs.iter().flatten().count();
    assert_eq!(without.len(), case.requests.len());
    assert_eq!(with.len(), without.len() + 2 * put_in);
    let mut with = with.iter();
    let mut tally = Tally::default();
    let mut last: Option<&Reply> = None;
    let rows = case.requests.iter().zip(pairs).zip(without);
    for (at, ((request, pair), without)) in rows.enumerate() {
        let before = tally;
        if pair.is_some() {
            let (opened, closed) = (with.next().unwrap(), with.next().unwrap());
            let last = last.expect("a request before the first pair");
            tally.add(tally_of(last, opened, closed));
        }
        let with = with.next().unwrap();
        last = Some(with);
        let [mut with, mut without] = [*with, *without];
        if tally.on_bytes > 0 {
            [with, without] = [with, without].map(but_for_ram);
        }
        if before.on_bytes > 0 {
            [with, without] = [with, without].map(|reply| but_for_loads(request, reply));
        }
        assert_eq!(with, without, "{at}: {request:?}");
    }
    tally
}

/// What came of a pair behind a reply.
fn tally_of(last: &Reply, opened: &Reply, closed: &Reply) -> Tally {
    let (is_done, is_same) = (opened.number == 0, closed.ram == last.ram);
    assert_eq!(closed.image, last.image, "tables");
    assert_eq!((closed.number == 0, closed.a, closed.b), (is_done, 0, 0));
    assert!(is_done || is_same, "a refused call");
    Tally {
        refused: usize::from(!is_done),
        on_zero: usize::from(is_done && is_same),
        on_bytes: usize::from(is_done && !is_same),
    }
}

/// A pair at every place, with one length and one string after the other; and at
/// some places each of these alone.
fn check_places(side: Side, case: &Case, places: usize) -> Tally {
    let requests = case.requests.len();
    let without = side(case);
    let (lengths, names) = (LENGTHS.into_iter().cycle(), NAMES.into_iter().cycle());
    let pairs = lengths.zip(names).map(Some);
    let everywhere: Vec<Pair> = [None].into_iter().chain(pairs).take(requests).collect();
    let mut tally = check(side, case, &without, &everywhere);
    for number in 0..places {
        let place = 1 + number * (requests - 1) / places;
        let mut alone = vec![None; requests];
        alone[place] = everywhere[place];
        tally.add(check(side, case, &without, &alone));
    }
    tally
}

/// Every kind of call but start and unknown ones; nothing that the user stored
/// becomes the system's.
const ZERO: &str = r#"
start 296 252 253 254 255
status
open 1 0 100 "VIDEO:"
write 1 0 010203
boundary
default 7 "net"
open 2 0 300 "-9:"
write 2 296 04050607
read 2 290 256
allocate 1
link 40 "DISK"
read 1 0 256
close 1
read 2 290 256
open 3 0 10 "DISK-5:"
open 4 0 30 ""
free 1 253
user store 252 0x5c 0809
load module 252 0 0x100 bytes 0a0b word 0c0d end
open 5 0 16000 "keyboard:"
boundary
close 5
allocate 0
allocate 0
status
set user boundary 15000
open 6 0 900 "VIDEO:"
write 6 899 0e
open 7 0 65535 "VIDEO:"
boundary
close 2
read 6 899 1
free 0 254
user load 252 0x100 4
reset bits 6
open 8 0 30000 "VIDEO:"
reset bits 5
status
open 9 0 33048 "NET:"
write 9 33047 0f
read 9 33040 256
reset bits 4
boundary
user load 252 0x5c 2
"#;

#[test]
fn a_log_by_hand_stays_as_it_is() {
    let case = log(ZERO);
    on_both_sides(|side| {
        let refused = side(&case)
            .iter()
            .filter(|reply| !matches!(reply.number, 0 | 17))
            .count();
        assert_eq!(refused, 1, "the open of 7");
        let tally = check_places(side, &case, case.requests.len() - 1);
        assert_eq!(tally.on_bytes, 0, "{tally:?}");
        assert!(tally.on_zero > tally.refused, "{tally:?}");
    });
}

#[test]
fn logs_by_chance_stay_as_they_are_but_for_bytes_under_a_record() {
    // the first cases of a seed are logs
    let cases: Vec<_> = (0..12).map(|number| played(13, number).case).collect();
    on_both_sides(|side| {
        let mut tally = Tally::default();
        for case in &cases {
            tally.add(check_places(side, case, 4));
        }
        assert!(tally.on_zero > 300 && tally.on_bytes > 20, "{tally:?}");
    });
}

/// A log whose fifth request has the pair before it and whose seventh loads four
/// bytes of the user's, 01 to 04: the record lay over the last two.
struct Zeroed {
    words: &'static str,
    n: u16,
}

/// A segment that was given back: the record ends at offsets 16,383 and 16,382 of
/// 254.
const GIVEN_BACK: Zeroed = Zeroed {
    words: "start 256 253 254 255
    allocate 0
    user store 254 16380 01020304
    free 0 254
    allocate 0
    status
    user load 254 16380 4
    user store 254 16382 0506
    user load 254 16380 4",
    n: 242,
};

/// Between the boundaries of a shared segment: the record lies at offsets 255 to
/// 220 of 255.
const BETWEEN: Zeroed = Zeroed {
    words: "start 256 254 255
    allocate 0
    user store 255 218 01020304
    set user boundary 100
    boundary
    set user boundary 256
    user load 255 218 4
    user store 255 220 0506
    user load 255 218 4",
    n: 20,
};

#[test]
fn users_bytes_under_the_record_are_loaded_as_zero_and_nothing_else_differs() {
    for Zeroed { words, n } in [GIVEN_BACK, BETWEEN] {
        let case = log(words);
        let mut pairs = vec![None; case.requests.len()];
        pairs[4] = Some((n, "VIDEO:"));
        on_both_sides(|side| {
            let without = side(&case);
            let tally = check(side, &case, &without, &pairs);
            assert_eq!((tally.on_zero, tally.on_bytes), (0, 1));
            let with = side(&with_pairs(&case, &pairs));
            let (without, with) = (&without[6..], &with[8..]);
            assert_eq!((without[0].number, without[0].b), (0, 4));
            assert_eq!(without[0].output, output_of(&[1, 2, 3, 4]));
            assert_eq!(with[0].output, output_of(&[1, 2, 0, 0]));
            assert_ne!(with[0].ram, without[0].ram);
            // once they are stored to, nothing differs
            assert_eq!(with[1..], without[1..]);
        });
    }
}

/// The digest of an output that begins with these bytes.
fn output_of(bytes: &[u8]) -> u64 {
    let mut output = [UNTOUCHED; OUTPUT];
    output[..bytes.len()].copy_from_slice(bytes);
    digest(&output)
}
