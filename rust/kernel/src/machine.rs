//! What the listing program and the auditor lend, and the rules by which they
//! do.

use crate::answers::{Refusal, Reply};
use crate::calls::{call, Call};
use crate::tables::{Tables, SEGMENT};

/// "It lends at most four segments."
const SEGMENTS: usize = 4;
/// "And 4,096 bytes of output."
pub const LISTED: usize = 4_096;

/// The tables, and the RAM and the output that are lent.
#[derive(Clone)]
pub struct Machine {
    tables: Tables,
    ram: Vec<u8>,
    lent: usize,
    output: Vec<u8>,
}

impl Default for Machine {
    /// What the listing program lends.
    fn default() -> Self {
        Machine::lending(LISTED)
    }
}

impl Machine {
    /// So many bytes of output, before an accepted start: no good tables, so
    /// "every other kind answers 1".
    pub fn lending(output: usize) -> Machine {
        Machine {
            tables: Tables::default(),
            ram: vec![0; SEGMENTS * SEGMENT],
            lent: 0,
            output: vec![0; output],
        }
    }

    /// Makes a call.
    pub fn answer(&mut self, request: Call) -> Reply {
        match request {
            Call::Start { list, .. } => self.start(request, list.len()),
            _ => self.call(request, self.lent),
        }
    }

    /// "A start of more than four segments answers 16."
    fn start(&mut self, request: Call, segments: usize) -> Reply {
        if segments > SEGMENTS {
            return Refusal::Start.into();
        }
        let lent = segments * SEGMENT;
        let reply = self.call(request, lent);
        if reply.number == 0 {
            self.lent = lent;
        }
        reply
    }

    fn call(&mut self, request: Call, lent: usize) -> Reply {
        let ram = &mut self.ram[..lent];
        call(&mut self.tables, ram, request, &mut self.output)
    }

    /// The tables, after an accepted start.
    pub fn tables(&self) -> Option<&Tables> {
        (self.lent > 0).then_some(&self.tables)
    }

    /// The RAM that is lent, "16,384 bytes a segment in list order".
    pub fn ram(&self) -> &[u8] {
        &self.ram[..self.lent]
    }

    /// The output that is lent.
    pub fn output(&self) -> &[u8] {
        &self.output
    }
}
