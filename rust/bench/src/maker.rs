//! A maker's log of events.

use crate::{events, Log};
use exos_kernel::{decode, Machine, Reply};

/// Order 11: "output 4,090 bytes".
const OUTPUT: usize = 4_090;

/// The events of a log on at most four segments, each followed by the Rust kernel's "reply record of kind 512 with answer
/// number u8, a u8, b u16 and the b output bytes where the listing program would print any".
pub fn maker(log: &Log) -> Log {
    let mut machine = Machine::lending(OUTPUT);
    let mut made = Log::default();
    for (kind, body) in events(&log.bytes) {
        let Reply { number, a, b, .. } = machine.answer(decode(kind, body));
        let printed = match (kind, number) {
            (6 | 20 | 258, 0) => b,
            _ => 0,
        };
        let bytes = &machine.output()[..usize::from(printed)];
        made.record(kind, body);
        made.record(512, &[&[number, a], &b.to_le_bytes()[..], bytes].concat());
    }
    made
}
