//! An independent reference kernel: segments, boundaries, channels and their
//! RAM, device names, reset flags and relocatable modules of EXOS 2.1.
//!
//! Sentences in quotation marks are those of the definition (document 01) and
//! of the orders (document 02) that the code beside them follows. [`call`]
//! makes one call on [`Tables`] and the lent RAM; a refused call changes
//! nothing. [`write_module`], which has no kind, needs neither. [`listing`] and
//! [`audit`] read logs of event records; [`run`] makes programs of them.

mod answers;
mod audit;
mod calls;
mod channels;
mod counter;
mod devices;
mod events;
mod good;
mod items;
mod line;
mod listing;
mod lists;
mod machine;
mod modules;
mod names;
mod programs;
mod reset;
mod segments;
mod tables;
mod user;
mod writer;

pub use answers::{Refusal, Reply, SHARED_GRANT};
pub use audit::{audit, Verdict, Word};
pub use calls::{call, Call};
pub use channels::{lend, Lent};
pub use events::decode;
pub use good::good;
pub use items::Item;
pub use listing::{hex, listing};
pub use lists::{list_of, read_module};
pub use machine::{Machine, LISTED};
pub use programs::run;
pub use tables::{
    class, Channel, DefaultName, Device, Tables, HEADING, LEAST_R, MOST_R, NAME, ROWS_OF_CHANNELS,
    ROWS_OF_DEVICES, ROWS_OF_SEGMENTS, SEGMENT,
};
pub use writer::write_module;
