//! Holds the independent auditor against the proved program `exos_audit`, and
//! both against what was put in: makers' logs with the right replies, and with a
//! fault of every sort in them. A difference is shrunk and told as the log in
//! hex.

mod events;
mod faults;
mod logs;
mod pairs;
mod report;
mod run;
mod shrink;
mod sides;
mod spots;
mod table;
mod trials;

pub use run::{Audits, Outcome};
pub use sides::{find_auditor, Auditor, Proved};
pub use table::Table;
