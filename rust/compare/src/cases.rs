//! The cases of a seed: tables by sentences, modules, the writer, reads, opens
//! that are closed again, closes and links, logs steered to the edges, damaged logs,
//! damaged tables, RAM of a wrong length.

use crate::damage::damage;
use crate::edges::ram_length_for;
use crate::modules::modules;
use crate::plan::{plan, Plan};
use crate::player::{Played, Player};
use crate::protocol::{image_of, Case, Request, IMAGE, MOST_RAM};
use crate::quietly::is_good;
use crate::reads::{far_reads, reads};
use crate::steer::{some_list, some_r, Mood, Steer};
use crate::writers::{lists, there_and_back, writers};
use exos_kernel::{Tables, SEGMENT};
use exos_random::Random;
use exos_sentences::{changed, Change, CALLS};

/// The case of a seed with a number.
pub fn played(seed: u64, number: u64) -> Played {
    match plan(number) {
        Plan::Sentence(change) => Player::of(about(change)).played,
        Plan::Modules => Player::of(modules()).played,
        Plan::Writers => Player::of(writers()).played,
        Plan::Reads => Player::of(reads()).played,
        Plan::FarReads => Player::of(far_reads()).played,
        Plan::Again(case) | Plan::ClosesAndLinks(case) => Player::of(case()).played,
        Plan::Lists => lists(&mut Random::new(seed, number)),
        Plan::ThereAndBack => there_and_back(&mut Random::new(seed, number)),
        plan => steered(&mut Random::new(seed, number), plan),
    }
}

/// Every kind of call on the tables of a change.
fn about(change: &Change) -> Case {
    let tables = changed(change);
    let output = 8;
    Case {
        image: image_of(&tables),
        ram_length: ram_length_for(&tables) as u32,
        seed: 1,
        requests: CALLS
            .map(|(kind, body)| Request::new(output, kind, body))
            .to_vec(),
    }
}

/// A case whose calls are chosen by the tables that they meet.
fn steered(random: &mut Random, plan: Plan) -> Played {
    let mood = plan.mood(random);
    let mut origin = origin(random, plan, mood);
    let tables = origin.tables().clone();
    if origin.panicked() || !is_good(&tables) {
        // no tables to aim by: a status shows that the start or its tables are refused
        origin.make(Request::new(5, 20, &[]));
        return origin.played;
    }
    let case = opening(random, plan, &tables);
    let calls = plan.calls(random);
    let player = Player::of(case).going_on(calls, |machine| {
        let present = &machine.tables;
        let steer = Steer {
            random,
            tables: if is_good(present) { present } else { &tables },
            mood,
            opened: machine.opened(),
        };
        chosen(steer, plan)
    });
    player.played
}

/// The next call of a case.
fn chosen(mut steer: Steer, plan: Plan) -> Request {
    let request = if steer.random.one_in(plan.start_one_in()) {
        steer.start()
    } else {
        steer.request()
    };
    if steer.random.one_in(plan.damaged_one_in()) {
        steer.damaged(request)
    } else {
        request
    }
}

/// Calls that lead to good tables to begin from. Those that are then damaged
/// have a history.
fn origin(random: &mut Random, plan: Plan, mood: Mood) -> Player {
    let segments = plan.segments(random);
    let (r, list) = (some_r(random) as u16, some_list(random, segments));
    let case = Case {
        image: [0; IMAGE],
        ram_length: (segments * SEGMENT) as u32,
        seed: 0,
        requests: vec![start(r, &list)],
    };
    let calls = 1 + plan.calls_before(random);
    Player::of(case).going_on(calls, |machine| {
        let mut steer = Steer {
            random,
            tables: &machine.tables,
            mood,
            opened: machine.opened(),
        };
        steer.request()
    })
}

/// What the case begins with: tables, RAM, and the start where the tables are
/// not there yet.
fn opening(random: &mut Random, plan: Plan, origin: &Tables) -> Case {
    let mut case = Case {
        image: image_of(origin),
        ram_length: (usize::from(origin.segments) * SEGMENT) as u32,
        seed: random.number() as u32,
        requests: Vec::new(),
    };
    match plan {
        Plan::DamagedTables => damage(random, origin, &mut case.image),
        Plan::WrongLength => case.ram_length = wrong_length(random, case.ram_length),
        Plan::Log | Plan::DamagedLog if random.one_in(2) => {}
        _ => {
            case.image = [0; IMAGE];
            case.requests.push(start_of(origin));
        }
    }
    case
}

/// The start that leads to fresh tables.
pub fn start_of(tables: &Tables) -> Request {
    start(tables.cold_r, &tables.list[..usize::from(tables.segments)])
}

fn start(r: u16, list: &[u8]) -> Request {
    let body = [&r.to_le_bytes(), list].concat();
    Request::new(0, 256, &body)
}

fn wrong_length(random: &mut Random, right: u32) -> u32 {
    let segment = SEGMENT as u32;
    let any = random.number() as u32 % (2 * right);
    let lengths = [
        right - 1,
        right + 1,
        right - segment,
        right + segment,
        0,
        any,
    ];
    random.pick(&lengths).min(MOST_RAM)
}

#[cfg(test)]
mod tests {
    use super::*;

    #[test]
    fn a_number_gives_the_same_case_again() {
        for number in [300, 301, 302, 312, 315, 385, 388, 390] {
            let (one, other) = (played(3, number), played(3, number));
            assert_eq!(one.case, other.case);
            assert_eq!(one.replies, other.replies);
            assert_ne!(one.case, played(4, number).case);
        }
    }

    #[test]
    fn replies_are_those_of_the_case_run_again() {
        for number in 90..130 {
            let played = played(8, number);
            assert_eq!(crate::machine::replies(&played.case), played.replies);
        }
    }

    #[test]
    fn most_calls_of_a_log_do_something() {
        let (mut done, mut all) = (0, 0);
        for number in 2..50 {
            for reply in played(5, number * 100 + 2).replies {
                all += 1;
                done += usize::from(matches!(reply.number, 0 | 17));
            }
        }
        assert!(done * 10 > all * 6, "{done} of {all}");
    }

    #[test]
    fn some_opens_of_a_log_are_closed_again_at_once() {
        let (mut again, mut opens) = (0, 0);
        // a log, but where a planned case has the number
        for number in 2..50 {
            let Played { case, replies, .. } = played(5, number * 100 + 2);
            let calls = case.requests.iter().zip(&replies);
            let calls: Vec<_> = calls
                .map(|(request, reply)| (request.kind(), request.channel_lent(), reply.number))
                .collect();
            for pair in calls.windows(2) {
                if let [(Some(1), channel, 0), next] = *pair {
                    opens += 1;
                    again += usize::from(next == (Some(3), channel, 0));
                }
            }
        }
        assert!(again * 10 > opens, "{again} of {opens}");
    }
}
