//! Order 8 by hand: of each record of `logs/moves.log` the proved program and the
//! independent kernel move as many bytes as its line of `logs/moves.moved` says.

use exos_compare::machine;
use exos_compare::program::{find_program, Answerer, Program};
use exos_compare::protocol::{Case, Reply, Request, IMAGE};
use exos_kernel::{Machine, LISTED, SEGMENT};
use exoslog::{answer_to, records, Record};
use std::fs;
use std::path::Path;

/// A file of the repository's logs.
fn read(name: &str) -> Vec<u8> {
    let path = Path::new(env!("CARGO_MANIFEST_DIR"))
        .join("../../logs")
        .join(name);
    fs::read(&path).unwrap_or_else(|error| panic!("{}: {error}", path.display()))
}

/// The cases of a log. As the listing program does, it lends each start the RAM of
/// its list: a start that is done begins a case.
fn cases(log: &[u8]) -> Vec<Case> {
    let mut machine = Machine::default();
    let mut cases = vec![case(0)];
    for record in records(log) {
        let Record::Whole { kind, body } = record else {
            panic!("{record:?}");
        };
        let answer = answer_to(&mut machine, record).expect("a whole record");
        if kind == 256 && answer.number == 0 {
            cases.push(case(usize::from(answer.a)));
        }
        let last = cases.last_mut().expect("a case");
        last.requests.push(Request::new(LISTED, kind, body));
    }
    cases.retain(Case::is_whole);
    cases
}

/// No tables, the RAM of so many segments, and no request.
fn case(segments: usize) -> Case {
    Case {
        image: [0; IMAGE],
        ram_length: (SEGMENT * segments) as u32,
        seed: 1,
        requests: Vec::new(),
    }
}

#[test]
fn the_log_of_moves_moves_what_its_lines_say() {
    let cases = cases(&read("moves.log"));
    let text = String::from_utf8(read("moves.moved")).expect("a text");
    let lines: Vec<u32> = text
        .lines()
        .map(|line| line.parse().expect("a number a line"))
        .collect();
    assert!(lines.iter().any(|&moved| moved > 0), "{lines:?}");

    let path = find_program().unwrap_or_else(|error| panic!("{error}"));
    let mut program = Program::at(&path);
    let of_program = |case: &Case| program.replies(case).expect("a started program").given;
    let replies = [
        cases.iter().flat_map(of_program).collect::<Vec<Reply>>(),
        cases.iter().flat_map(machine::replies).collect(),
    ];
    for replies in replies {
        let moved: Vec<_> = replies.iter().map(|reply| reply.moved).collect();
        assert_eq!(moved, lines);
    }
}
