//! Tests of the tool as a whole.

mod audits;
mod command;
mod logs;
mod makers;
mod modules;
mod pictures;
mod programs;
mod replays;
mod round_trips;
mod runs;
mod transcript;
mod writing;

use exos_random as random;
