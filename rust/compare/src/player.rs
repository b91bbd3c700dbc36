//! Plays a case on the independent kernel, and notes what comes of it.

use crate::counts::Counts;
use crate::edges::Made;
use crate::machine::Machine;
use crate::protocol::{Case, Reply, Request};
use exos_kernel::Tables;
use std::mem;

/// A case, the independent kernel's replies to it, and what it met.
pub struct Played {
    /// The case.
    pub case: Case,
    /// The replies of the independent kernel.
    pub replies: Vec<Reply>,
    /// What the case counts for.
    pub counts: Counts,
}

/// A case while requests are added to it.
pub struct Player {
    machine: Machine,
    /// What was played so far.
    pub played: Played,
}

impl Player {
    /// Plays the requests that a case has.
    pub fn of(mut case: Case) -> Player {
        let machine = Machine::of(&case);
        let requests = mem::take(&mut case.requests);
        let mut player = Player {
            machine,
            played: Played {
                case,
                replies: Vec::new(),
                counts: Counts::new(),
            },
        };
        for request in requests {
            player.make(request);
        }
        player
    }

    /// Adds requests, chosen by the machine that they meet, up to a number of
    /// all.
    pub fn going_on(
        mut self,
        requests: usize,
        mut choose: impl FnMut(&Machine) -> Request,
    ) -> Player {
        while self.played.replies.len() < requests && !self.panicked() {
            let request = choose(&self.machine);
            self.make(request);
        }
        self
    }

    /// Makes one request. After a panic nothing is known of the kernel, and no
    /// further one is made.
    pub fn make(&mut self, request: Request) {
        if self.panicked() {
            return;
        }
        let before = self.machine.tables.clone();
        let reply = self.machine.answer(&request);
        let Played {
            case,
            replies,
            counts,
        } = &mut self.played;
        let made = Made {
            before: &before,
            after: &self.machine.tables,
            ram_length: self.machine.ram_length(),
            again: self.machine.again(),
        };
        counts.add(&made, &request, &reply);
        replies.push(reply);
        case.requests.push(request);
    }

    /// The present tables.
    pub fn tables(&self) -> &Tables {
        &self.machine.tables
    }

    /// Whether the kernel panicked at the last request.
    pub fn panicked(&self) -> bool {
        self.played.replies.last().is_some_and(Reply::panicked)
    }
}
