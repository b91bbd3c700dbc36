//! Faults put into a side, and the cases that are left of them.

use super::*;
use crate::cases::played;
use crate::judge::Difference;
use crate::machine;
use crate::protocol::{tables_of, Reply};
use crate::report::words;
use exos_modules::{Module, What};

/// A side that writes a buffer's byte wrong from the second channel on,
/// for writes of two bytes or more.
fn faulty(case: &Case) -> Vec<Reply> {
    let mut open = 0;
    let mut replies = machine::replies(case);
    for (request, reply) in case.requests.iter().zip(&mut replies) {
        let done = reply.number == 0;
        let kind = request.kind();
        open += i32::from(done && kind == Some(1));
        open -= i32::from(done && kind == Some(3));
        if matches!(kind, Some(0 | 256)) && done {
            open = 0;
        }
        if done && kind == Some(8) && reply.b >= 2 && open >= 2 {
            reply.ram ^= 1;
        }
    }
    replies
}

fn differs(case: &Case) -> Option<usize> {
    let found = Difference::between(&mut faulty, case).unwrap();
    found.map(|found| found.request)
}

#[test]
fn a_fault_is_shrunk_to_its_least_records() {
    let found = (0..).map(|number| played(1, number).case);
    let mut found = found.filter(|case| differs(case).is_some_and(|at| at > 10));
    for _ in 0..5 {
        let case = shrink(found.next().unwrap(), differs);
        let said: Vec<_> = case.requests.iter().map(words).collect();
        let first = case.requests[0].record[4];
        assert_eq!(said[0], format!("start 256 {first} 255"));
        let written = case.requests[3].record[2];
        assert_eq!(said[3..], [format!("write {written} 0 0000")]);
        let mut opens = [said[1].as_str(), &said[2]];
        opens.sort_by_key(|open| open.starts_with(&format!("open {written} ")));
        assert_eq!(opens[0], format!("open {} 0 0 \"VIDEO:\"", 1 - written));
        assert_eq!(opens[1], format!("open {written} 0 2 \"VIDEO:\""));
        assert_eq!(case.ram_length, 32_768);
    }
}

#[test]
fn a_fault_in_modules_is_shrunk_to_its_least_items() {
    // a side that loads two words or more wrong
    let mut faulty = |case: &Case| {
        let mut replies = machine::replies(case);
        for (request, reply) in case.requests.iter().zip(&mut replies) {
            let Some((30, body)) = request.event() else {
                continue;
            };
            let module = body.get(4..).map(Module::of);
            let items = module.map_or(vec![], |module| module.items);
            let words = items.iter().filter(|item| item.what == What::Word);
            if reply.number == 0 && words.count() >= 2 {
                reply.ram ^= 1;
            }
        }
        replies
    };
    let mut differs = |case: &Case| {
        let found = Difference::between(&mut faulty, case).unwrap();
        found.map(|found| found.request)
    };
    let found = (0..).map(|number| played(1, number).case);
    let mut found = found.filter(|case| differs(case).is_some_and(|at| at > 10));
    let case = found.next().unwrap();
    drop(found);
    let case = shrink(case, differs);
    let said: Vec<_> = case.requests.iter().map(words).collect();
    let first = case.requests[0].record[4];
    assert_eq!(
        said,
        [
            format!("start 256 {first} 255"),
            format!("load module {first} 0 0 word 0000 word 0000 end")
        ]
    );
}

#[test]
fn a_fault_on_damaged_tables_keeps_them() {
    // a side that answers otherwise where the cold R is 77
    let mut faulty = |case: &Case| {
        let mut replies = machine::replies(case);
        if tables_of(&case.image).cold_r == 77 {
            replies[0].number ^= 4;
        }
        replies
    };
    let mut case = played(1, 14).case;
    case.image[102..104].copy_from_slice(&[77, 0]);
    let case = shrink(case, |case| {
        Some(Difference::between(&mut faulty, case).unwrap()?.request)
    });
    assert_eq!(case.requests.len(), 1);
    let left = case.image.iter().filter(|&&byte| byte != 0).count();
    assert_eq!((left, case.image[102]), (1, 77));
}
