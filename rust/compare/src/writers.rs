//! Cases of the writer: one that leaves nothing to chance, lists alone, and
//! modules there and back.

use crate::player::{Played, Player};
use crate::protocol::{Case, Reply, Request, Writing, IMAGE};
use crate::steer::{Mood, Steer};
use exos_kernel::{decode, Call, Tables, SEGMENT};
use exos_modules::{byte, list, move_by, of_list, set_page, stream, word};
use exos_modules::{Item, Module, What, END, RESTORE};
use exos_random::Random;

/// How many requests a case of chance has.
const REQUESTS: usize = 420;
/// The page zero segment, which the modules are loaded into.
const PAGE_ZERO: u8 = 252;
/// Past the page's end.
const PAST: u16 = SEGMENT as u16;
/// As many items as a record can have.
const MOST_IN_A_RECORD: usize = 21_844;

/// Lists and nothing else, with no RAM to digest.
pub fn lists(random: &mut Random) -> Played {
    let tables = Tables::default();
    let mut steer = steer(random, &tables);
    let player = Player::of(nothing()).going_on(REQUESTS, |_| steer.write_module());
    player.played
}

/// Lists that are written and then loaded, and streams that are loaded and whose
/// items are then written.
pub fn there_and_back(random: &mut Random) -> Played {
    let mut player = Player::of(started());
    let tables = player.tables().clone();
    while player.played.replies.len() < REQUESTS && !player.panicked() {
        let mut steer = steer(random, &tables);
        let there = match steer.random.below(5) {
            0 | 1 => steer.write_module(),
            2 | 3 => steer.load_module(),
            _ => {
                let load = steer.load_module();
                garbled(random, load)
            }
        };
        player.make(there.clone());
        let done = player.played.replies.last().filter(|last| last.number == 0);
        if let Some(back) = done.and_then(|done| back(random, &there, done)) {
            player.make(back);
        }
    }
    player.played
}

fn steer<'a>(random: &'a mut Random, tables: &'a Tables) -> Steer<'a> {
    let mood = Mood::Mixed;
    Steer {
        random,
        tables,
        mood,
        opened: None,
    }
}

/// A load whose stream has a bit changed.
fn garbled(random: &mut Random, mut load: Request) -> Request {
    const START: usize = 6;
    if let Some(stream) = load
        .record
        .get_mut(START..)
        .filter(|stream| !stream.is_empty())
    {
        let at = random.below(stream.len());
        stream[at] ^= 1 << random.below(8);
    }
    load
}

/// The way back of a module that was written or loaded.
fn back(random: &mut Random, there: &Request, done: &Reply) -> Option<Request> {
    match there.event() {
        None => {
            let Writing { page, offset, list } = Writing::of(&there.record)?;
            let mut items = of_list(list)?;
            items.push(END);
            Some(load(page, offset, &stream(&items)))
        }
        Some((kind, body)) => {
            let Call::LoadModule {
                page,
                offset,
                stream,
                ..
            } = decode(kind, body)
            else {
                return None;
            };
            let items = Module::of(stream).items;
            let output = usize::from(done.b) + random.below(3);
            Some(write(output, page, offset, &items))
        }
    }
}

fn load(page: u8, offset: u16, stream: &[u8]) -> Request {
    let [low, high] = offset.to_le_bytes();
    let start = [PAGE_ZERO, page, low, high];
    Request::new(0, 30, &[&start, stream].concat())
}

fn write(output: usize, page: u8, offset: u16, items: &[Item]) -> Request {
    let list = &list(items);
    Request::to_writer(output, Writing { page, offset, list }.record())
}

/// No tables and no RAM. A case begins with an event.
fn nothing() -> Case {
    Case {
        image: [0; IMAGE],
        ram_length: 0,
        seed: 0,
        requests: vec![Request::new(0, 22, &[])],
    }
}

/// The least RAM, and channels that starts name: by the high byte of their offset.
fn started() -> Case {
    let start = Request::new(0, 256, &[0, 8, PAGE_ZERO, 255]);
    let opens = [0, 0x3F, 0x40].map(|channel| {
        let body = [&[channel, 0, 3, 0], &b"VIDEO:"[..]].concat();
        Request::new(0, 1, &body)
    });
    let writes = [0, 0x40].map(|channel| Request::new(0, 8, &[channel, 0, 0, 1, 2, channel]));
    Case {
        ram_length: 2 * SEGMENT as u32,
        requests: [&[start], &opens[..], &writes].concat(),
        ..nothing()
    }
}

/// The case that leaves nothing to chance.
pub fn writers() -> Case {
    let mut case = started();
    case.requests.extend(starts());
    case.requests.extend(at_the_end());
    case.requests.extend(moves());
    case.requests.extend(pages());
    case.requests.extend(ends());
    case.requests.extend(buffers());
    case.requests.extend(no_lists());
    case
}

/// Starts on both sides of each range.
fn starts() -> impl Iterator<Item = Request> {
    [
        (0, 0),
        (3, 0),
        (4, 0),
        (255, 0),
        (0, PAST),
        (0, PAST + 1),
        (3, PAST),
        (4, PAST + 1),
        (0, 65_535),
    ]
    .into_iter()
    .map(|(page, offset)| write(4, page, offset, &[]))
}

/// Stores up to the page's end and past it.
fn at_the_end() -> impl Iterator<Item = Request> {
    (PAST - 3..=PAST).flat_map(|offset| {
        [vec![byte(7)], vec![word(7)], vec![byte(7), word(7)]]
            .map(|items| write(16, 2, offset, &items))
    })
}

/// Moves to each end of the page, forth and back, from each of them.
fn moves() -> impl Iterator<Item = Request> {
    const ENDS: [u16; 6] = [0, 1, PAST - 1, PAST, PAST + 1, 65_535];
    [0, 1, PAST - 1, PAST].into_iter().flat_map(|from| {
        ENDS.map(|to| {
            let there = move_by(to.wrapping_sub(from));
            write(16, 3, from, &[there, byte(7)])
        })
    })
}

/// Pages that are set, first and between other items.
fn pages() -> impl Iterator<Item = Request> {
    [0, 3, 4, 255, 256, 259, 65_535]
        .into_iter()
        .flat_map(|value| {
            let what = What::SetPage;
            let set = Item { what, value };
            let first = write(16, 0, 0, &[set]);
            let between = write(16, 0, 0, &[byte(7), set, RESTORE, word(7)]);
            [first, between]
        })
}

/// Each number of padding bits behind each item, and the longest lists.
fn ends() -> impl Iterator<Item = Request> {
    let items = [byte(7), word(7), set_page(1), RESTORE, move_by(0)];
    let padded = items.into_iter().flat_map(|item| {
        (0..8).map(move |restores| {
            let items = [&[item], &vec![RESTORE; restores][..], &[item]].concat();
            write(16, 0, 0, &items)
        })
    });
    let long = write(4_000, 0, 0, &[byte(9), word(9)].repeat(1_150));
    let longest = write(65_535, 0, 0, &[move_by(0)].repeat(MOST_IN_A_RECORD));
    padded.chain([long, longest])
}

/// Buffers around a module's length, for lists that are right and at fault.
fn buffers() -> impl Iterator<Item = Request> {
    let right = [byte(7), word(7)];
    let at_fault = [byte(7), word(7), move_by(0x8000)];
    [0, 1, 3, 4, 5, 6, 7, 65_535]
        .into_iter()
        .flat_map(move |output| {
            [
                write(output, 0, 0, &right),
                write(output, 0, 0, &at_fault),
                write(output, 4, 0, &right),
                write(output, 0, 0, &[]),
            ]
        })
}

/// Records that are no start and list of items.
fn no_lists() -> impl Iterator<Item = Request> {
    let wrong: [&[u8]; 9] = [
        &[0],
        &[0, 7],
        &[0, 0, 1],
        &[0, 255, 255],
        &[3, 1, 0],
        &[3, 0, 1],
        &[5, 0, 0],
        &[255, 0, 0],
        &[6, 0],
    ];
    let lists = wrong.into_iter().flat_map(|wrong| {
        let first = wrong.to_vec();
        let last = [&[1, 7, 0], wrong].concat();
        [first, last]
    });
    let records = lists.flat_map(|list| {
        [0, 4].map(|page| {
            let (offset, list) = (0, &list[..]);
            Writing { page, offset, list }.record()
        })
    });
    let records = records.chain([vec![0, 0], vec![4, 0]]);
    records.map(|record| Request::to_writer(8, record))
}

#[cfg(test)]
mod tests {
    use super::*;
    use crate::edges::Edge;

    #[test]
    fn its_edges_are_met() {
        let counts = Player::of(writers()).played.counts;
        let of_writer = counts
            .edges()
            .filter(|(edge, _)| matches!(edge, Edge::Writer(_)));
        let unmet: Vec<_> = of_writer.filter(|&(_, count)| count == 0).collect();
        assert_eq!(unmet, []);
        assert!(counts
            .missing()
            .iter()
            .all(|pair| !pair.starts_with("write module")));
    }

    #[test]
    fn most_lists_are_written_and_loaded() {
        let Played { case, replies, .. } = there_and_back(&mut Random::new(1, 1));
        let is_done = |at: usize| replies[at].number == 0;
        let sorts = (1..replies.len()).filter(|&at| is_done(at - 1) && is_done(at));
        let (mut written, mut loaded) = (0, 0);
        for at in sorts {
            match (case.requests[at - 1].kind(), case.requests[at].kind()) {
                (None, Some(30)) => written += 1,
                (Some(30), None) => loaded += 1,
                _ => {}
            }
        }
        assert!(written > 60 && loaded > 60, "{written}, {loaded}");
    }
}
