//! Makes a case that shows a difference as small as it can: fewer records,
//! then smaller numbers, shorter names, data, modules and lists, plainer
//! tables.

mod bodies;
mod modules;
mod parts;
mod requests;
mod runs;
mod tables;
#[cfg(test)]
mod tests;
mod writer;

use crate::protocol::Case;
pub(crate) use runs::leave_out;
use std::time::{Duration, Instant};

/// How often all is tried again: numbers that hang together, as R and an n,
/// could go on falling by little for long.
const ROUNDS: usize = 10;

/// How long is tried: a case of 32 segments could take many minutes.
const LONGEST: Duration = Duration::from_secs(15);

/// Shrinks a case. `differs` runs both sides anew and tells the first request
/// whose replies differ.
pub fn shrink(case: Case, differs: impl FnMut(&Case) -> Option<usize>) -> Case {
    let mut shrinker = Shrinker {
        case,
        differs,
        end: Instant::now() + LONGEST,
    };
    shrinker.accepts(shrinker.case.clone());
    for _ in 0..ROUNDS {
        let before = shrinker.case.clone();
        shrinker.drop_requests();
        shrinker.join_opens();
        shrinker.simplify_tables();
        shrinker.drop_segments();
        for row in 0..shrinker.case.requests.len() {
            shrinker.simplify_request(row);
            shrinker.lower_with_room(row);
        }
        shrinker.rename_channels();
        if shrinker.case == before {
            break;
        }
    }
    shrinker.case
}

struct Shrinker<Differs> {
    case: Case,
    differs: Differs,
    /// After this no case is accepted, so that all comes to an end.
    end: Instant,
}

impl<Differs: FnMut(&Case) -> Option<usize>> Shrinker<Differs> {
    /// Goes on with a case if it shows a difference, and cuts what comes
    /// after that.
    fn accepts(&mut self, mut case: Case) -> bool {
        if Instant::now() > self.end || !case.is_whole() {
            return false;
        }
        match (self.differs)(&case) {
            Some(request) => {
                case.requests.truncate(request + 1);
                self.case = case;
                true
            }
            None => false,
        }
    }
}
