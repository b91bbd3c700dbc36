//! Order 11: "The audit product."

mod cuts;
mod logs;
mod outputs;
mod replies;
mod starts;

use crate::listing::{record, START};
use exos_kernel::audit;

/// The reply to [`START`].
const STARTED: &[u8] = &[6, 0, 0, 2, 0, 4, 0x42, 0x2B];
/// The event status.
const STATUS: &[u8] = &[2, 0, 20, 0];
/// The reply to a status right after [`START`].
const COUNTS: &[u8] = &[11, 0, 0, 2, 0, 0, 5, 0, 2, 0, 1, 0, 0];
/// The event boundary, and its reply right after [`START`].
const BOUNDARY: &[u8] = &[2, 0, 22, 0];
const BOUND: &[u8] = &[6, 0, 0, 2, 0, 255, 0x42, 0x2B];

/// A reply record.
fn reply(number: u8, a: u8, b: u16, bytes: &[u8]) -> Vec<u8> {
    record(512, &[&[number, a], &b.to_le_bytes()[..], bytes].concat())
}

/// What the audit of some records, end to end, says.
fn verdict(records: &[&[u8]]) -> String {
    audit(&records.concat()[..]).unwrap().to_string()
}

/// What the audit says of records behind a good start and its reply: the first
/// of them is record 2.
fn after_start(records: &[&[u8]]) -> String {
    verdict(&[&[START, STARTED], records].concat())
}
