//! Order 8, asked of every request: "for close the lengths of the records after the
//! closed one, for a link T if R falls, else 0"; the number "never exceeds T before
//! the call. Other and refused calls report 0". The tables before the call tell what
//! is due: the kernel is not asked what it moves.

use crate::protocol::{Fault, Reply, Request};
use crate::quietly::is_good;
use crate::view::View;
use exos_kernel::{decode, Call, Tables};

/// What is due to a request.
pub struct Due {
    /// How many bytes it moves if it is done.
    if_done: u32,
    /// T before it; the writer and tables that are not good have none.
    t: Option<u32>,
}

impl Due {
    /// What is due to a request on these tables.
    pub fn of(request: &Request, tables: &Tables) -> Due {
        let event = request.event().filter(|_| is_good(tables));
        let Some((kind, body)) = event else {
            let (if_done, t) = (0, None);
            return Due { if_done, t };
        };
        let view = View(tables);
        let if_done = match decode(kind, body) {
            Call::Close { channel } => view.row_of(channel).map_or(0, |row| view.after(row)),
            Call::Link { m, .. } if m > 0 => view.t(),
            _ => 0,
        };
        Due {
            if_done: if_done as u32,
            t: Some(view.t() as u32),
        }
    }

    /// What is wrong with the number that a reply reports.
    pub fn fault(&self, reply: &Reply) -> Option<Fault> {
        let reported = reply.moved;
        if let Some(t) = self.t.filter(|&t| reported > t) {
            return Some(Fault::MovedPastT { reported, t });
        }
        let due = if reply.number == 0 { self.if_done } else { 0 };
        (reported != due).then_some(Fault::Moved { reported, due })
    }
}

#[cfg(test)]
mod tests {
    use super::*;
    use exos_sentences::{tables, CALLS};

    /// T of [`tables`], whose records have 516 and 1,016 bytes.
    const T: u32 = 1_532;

    fn reply(number: u16, moved: u32) -> Reply {
        Reply {
            number,
            moved,
            fault: None,
            ..Reply::of_panic()
        }
    }

    fn close(channel: u8) -> Request {
        Request::new(0, 3, &[channel])
    }

    fn link(m: u8) -> Request {
        Request::new(0, 21, &[m, 0, b'A'])
    }

    /// The fault of a reply to a request on some tables.
    fn fault(tables: &Tables, request: &Request, number: u16, moved: u32) -> Option<Fault> {
        Due::of(request, tables).fault(&reply(number, moved))
    }

    #[test]
    fn what_is_due_and_nothing_else() {
        let due = [
            (close(1), 0, 1_016),
            (close(2), 0, 0),
            (close(9), 3, 0),
            (close(1), 3, 0),
            (link(1), 0, T),
            (link(0), 0, 0),
            (link(1), 9, 0),
            (Request::new(0, 3, &[]), 2, 0),
        ];
        for (request, number, due) in due {
            let fault = |moved| fault(&tables(), &request, number, moved);
            assert_eq!(fault(due), None, "{request:?}");
            for reported in [0, 516, 1_000, 1_016, T].into_iter().filter(|&n| n != due) {
                let other = Fault::Moved { reported, due };
                assert_eq!(fault(reported), Some(other), "{request:?}");
            }
        }
    }

    #[test]
    fn more_than_t() {
        for request in [close(1), link(1), Request::new(0, 22, &[])] {
            let reported = T + 1;
            let past = Some(Fault::MovedPastT { reported, t: T });
            assert_eq!(fault(&tables(), &request, 0, reported), past);
        }
    }

    #[test]
    fn other_calls_are_due_nothing() {
        for (kind, body) in CALLS.into_iter().filter(|call| !matches!(call.0, 3 | 21)) {
            let request = Request::new(0, kind, body);
            assert_eq!(fault(&tables(), &request, 0, 0), None);
            let one = Fault::Moved {
                reported: 1,
                due: 0,
            };
            assert_eq!(fault(&tables(), &request, 0, 1), Some(one));
        }
    }

    #[test]
    fn tables_that_are_not_good_and_the_writer_have_nothing_to_move() {
        let mut bad = tables();
        bad.channel_count = 255;
        let writing = Request::to_writer(0, vec![3, 0, 1]);
        for (tables, request, number) in [
            (&bad, close(1), 1),
            (&bad, link(1), 1),
            (&tables(), writing, 0),
        ] {
            assert_eq!(fault(tables, &request, number, 0), None);
            let one = Fault::Moved {
                reported: 1,
                due: 0,
            };
            assert_eq!(fault(tables, &request, number, 1), Some(one));
        }
    }
}
