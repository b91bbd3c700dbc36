//! Holds the independent kernel against the proved program `exos_answer`:
//! the same requests to both, and after every call the answer, both values, the
//! number of bytes moved, the tables, every byte of the RAM, the output and what is
//! lent of a buffer compared. An open that is closed again at once is held against
//! what was there before it, and the bytes moved against the tables before the
//! call. The writer of modules is asked too. A difference is shrunk and told as a
//! log in words, which `exoslog encode` reads back; what the writer is asked stands
//! there in comments. [`audits`] does so with the auditors of makers' logs.

mod again;
pub mod audits;
pub mod cases;
mod closes_and_links;
mod counter;
pub mod counts;
mod damage;
mod edges;
pub mod judge;
pub mod machine;
mod modules;
mod moved;
mod no_mark;
mod plan;
mod planned;
pub mod player;
pub mod program;
pub mod protocol;
mod quietly;
mod reads;
pub mod report;
mod round_trips;
pub mod run;
pub mod settings;
pub mod shrink;
mod steer;
mod view;
mod writers;
mod writing_words;
