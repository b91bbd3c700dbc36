//! Where two sides differ in their replies to a case.

use crate::machine;
use crate::program::{Answerer, Replies, Stop};
use crate::protocol::{Case, Fault, Reply};
use std::io;

/// The first request of a case to which the replies differ.
#[derive(Clone, Debug, PartialEq, Eq)]
pub struct Difference {
    /// Which request it is.
    pub request: usize,
    /// The independent kernel's reply.
    pub kernel: Reply,
    /// The program's reply, or why there is none.
    pub program: Result<Reply, Stop>,
}

impl Difference {
    /// The first difference between the replies to as many requests. A kernel
    /// at fault differs from whatever the program replied.
    pub fn first(kernel: &[Reply], program: &Replies) -> Option<Difference> {
        kernel
            .iter()
            .enumerate()
            .map(|(request, &reply)| Difference {
                request,
                kernel: reply,
                program: program.given.get(request).copied().ok_or(program.stop),
            })
            .find(|row| row.kernel.fault.is_some() || row.program != Ok(row.kernel))
    }

    /// Runs both sides on a case.
    pub fn between(program: &mut dyn Answerer, case: &Case) -> io::Result<Option<Difference>> {
        let replies = program.replies(case)?;
        Ok(Difference::first(&machine::replies(case), &replies))
    }

    /// What differs, in words.
    pub fn fields(&self) -> Vec<String> {
        let kernel = self.kernel;
        if kernel.panicked() {
            return vec![Fault::Panicked.to_string()];
        }
        let program = match self.program {
            Ok(program) => program,
            Err(stop) => return vec![stop.to_string()],
        };
        let moved = format!(
            "moved (the kernel {}, the program {})",
            kernel.moved, program.moved
        );
        [
            (kernel.number == program.number, "answer"),
            (kernel.a == program.a, "a"),
            (kernel.b == program.b, "b"),
            (kernel.moved == program.moved, &moved),
            (kernel.image == program.image, "tables"),
            (kernel.ram == program.ram, "RAM"),
            (kernel.output == program.output, "output"),
            (kernel.part == program.part, "part lent"),
            (kernel.part_bytes == program.part_bytes, "bytes lent"),
        ]
        .into_iter()
        .filter(|field| !field.0)
        .map(|field| field.1.to_string())
        .chain(kernel.fault.map(|fault| fault.to_string()))
        .collect()
    }
}

#[cfg(test)]
mod tests {
    use super::*;

    const REPLY: Reply = Reply {
        number: 0,
        a: 1,
        b: 2,
        moved: 8,
        image: 3,
        ram: 4,
        output: 5,
        part: 6,
        part_bytes: 7,
        fault: None,
    };

    fn first(kernel: &[Reply], program: &[Reply]) -> Option<Difference> {
        let replies = Replies {
            given: program.to_vec(),
            stop: Stop::Ended,
        };
        Difference::first(kernel, &replies)
    }

    #[test]
    fn the_first_difference_and_its_fields() {
        let other = Reply {
            number: 9,
            ram: 0,
            ..REPLY
        };
        assert_eq!(first(&[REPLY; 3], &[REPLY; 3]), None);
        let found = first(&[REPLY; 3], &[REPLY, other, other]).unwrap();
        assert_eq!(found.request, 1);
        assert_eq!(found.fields(), ["answer", "RAM"]);
        let each = [
            (Reply { a: 7, ..REPLY }, "a"),
            (Reply { b: 7, ..REPLY }, "b"),
            (
                Reply { moved: 0, ..REPLY },
                "moved (the kernel 8, the program 0)",
            ),
            (Reply { image: 7, ..REPLY }, "tables"),
            (Reply { output: 7, ..REPLY }, "output"),
            (Reply { part: 0, ..REPLY }, "part lent"),
            (
                Reply {
                    part_bytes: 0,
                    ..REPLY
                },
                "bytes lent",
            ),
        ];
        for (other, field) in each {
            let found = first(&[REPLY], &[other]).unwrap();
            assert_eq!(found.fields(), [field]);
        }
    }

    #[test]
    fn a_fault_differs_from_any_reply() {
        let faults = [
            (Fault::Panicked, "the kernel panicked"),
            (
                Fault::NotReadBack,
                "the kernel's module does not read back as the list",
            ),
            (
                Fault::NotOfItems,
                "the kernel loads a module that its items do not make",
            ),
            (
                Fault::NotClosedAgain,
                "the kernel does not close again what it opened",
            ),
            (
                Fault::TablesMarked,
                "the kernel's open and close leave a mark in the tables",
            ),
            (
                Fault::RamMarked,
                "the kernel's open and close leave a mark in the RAM",
            ),
            (
                Fault::Moved {
                    reported: 8,
                    due: 9,
                },
                "the kernel reports 8 bytes moved, 9 are due",
            ),
            (
                Fault::Moved {
                    reported: 1,
                    due: 0,
                },
                "the kernel reports 1 byte moved, 0 are due",
            ),
            (
                Fault::MovedPastT { reported: 8, t: 7 },
                "the kernel reports 8 bytes moved, T was 7",
            ),
        ];
        for (fault, words) in faults {
            let at_fault = Reply {
                fault: Some(fault),
                ..REPLY
            };
            let found = first(&[REPLY, at_fault], &[REPLY, at_fault]).unwrap();
            assert_eq!(found.request, 1);
            assert_eq!(found.fields(), [words]);
        }
    }

    #[test]
    fn a_reply_that_is_not_there_differs() {
        let found = first(&[REPLY; 2], &[REPLY]).unwrap();
        assert_eq!((found.request, found.program), (1, Err(Stop::Ended)));
    }
}
