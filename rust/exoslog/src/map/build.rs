//! The RAM at a record of a log, and its regions.

use super::moved::{moved_in_all, Done};
use super::record::said_of;
use super::{Boundary, Class, LineRecord, Map, Ram, Region, Segment, What};
use crate::log::{record_with, Log, NoRecord};
use crate::replay::answer_to;
use crate::reply::MOST_BYTES;
use crate::words::counted;
use exos_kernel::{class, Call, Channel, Machine, Reply, Tables, HEADING, SEGMENT};

/// Which RAM is asked for.
#[derive(Clone, Copy, Debug, PartialEq, Eq)]
pub enum At {
    /// That after the last record.
    End,
    /// That after so many records.
    After(usize),
    /// That in which an event of a maker's log was asked: before the record with
    /// the event or the reply that an audit counts so.
    Reply(usize),
}

/// The RAM at a record of a log.
pub fn map(bytes: &[u8], at: At) -> Result<Map, NoRecord> {
    let log = match at {
        At::Reply(_) => Log::makers(bytes),
        At::End | At::After(_) => Log::of(bytes),
    };
    let of = log.asked().count();
    let record = match at {
        At::End => of,
        At::After(record) => record,
        At::Reply(number) => record_with(number),
    };
    let Some(before) = record.checked_sub(1) else {
        return Ok(Map {
            title: format!("RAM before any of {}", counted(of, "record")),
            lines: vec![],
            ram: None,
        });
    };
    let last = log.record(record)?;
    let (mut machine, mut done) = after(log, before);
    let asked_in = machine.clone();
    let answer = answer_to(&mut machine, last.event);
    done.extend(Done::of(record, last.event, answer));
    let mut lines = said_of(&machine, log, &last, answer);
    if at == At::End {
        lines.extend(moved_in_all(log, &done));
    }
    let (when, mut machine) = match at {
        At::Reply(_) => ("before", asked_in),
        At::End | At::After(_) => ("after", machine),
    };
    let boundary = machine.answer(Call::Boundary);
    Ok(Map {
        title: format!("RAM {when} {} of {of}", log.named(record)),
        lines,
        ram: machine.tables().map(|tables| ram(tables, boundary)),
    })
}

/// The machine after so many records, and those of their closes and links that are
/// done.
fn after(log: Log, records: usize) -> (Machine, Vec<Done>) {
    let mut machine = before_any(log);
    let mut done = Vec::new();
    for (record, asked) in (1..).zip(log.asked().take(records)) {
        let answer = answer_to(&mut machine, asked.event);
        done.extend(Done::of(record, asked.event, answer));
    }
    (machine, done)
}

/// The machine before any record: it lends what the listing program does or, to a
/// maker's log, what an audit does.
fn before_any(log: Log) -> Machine {
    if log.is_makers {
        Machine::lending(MOST_BYTES)
    } else {
        Machine::default()
    }
}

/// The RAM of good tables, with what the call `boundary` answers.
fn ram(tables: &Tables, boundary: Reply) -> Ram {
    let line = line(tables);
    let chain = &tables.chain[..usize::from(tables.chain_length)];
    let rows = 0..usize::from(tables.segments);
    let user = |row: usize| Boundary {
        segment: tables.list[row],
        offset: tables.user_boundary.into(),
    };
    Ram {
        r: tables.r.into(),
        cold_r: tables.cold_r.into(),
        t: line.last().map_or(0, |record| record.positions.end),
        exos: Boundary {
            segment: boundary.a,
            offset: boundary.b.into(),
        },
        user: rows
            .clone()
            .find(|&row| tables.classes[row] == class::SHARED)
            .map(user),
        chain: chain
            .iter()
            .map(|&row| tables.list[usize::from(row)])
            .collect(),
        segments: rows.map(|row| segment(tables, row, &line)).collect(),
        line,
    }
}

/// "Records lie end to end in opening order."
fn line(tables: &Tables) -> Vec<LineRecord> {
    let mut at = 0;
    let record = |channel: &Channel| {
        let start = at;
        at += HEADING + usize::from(channel.n);
        let device = &tables.devices[usize::from(channel.device)];
        let name = &device.name[..usize::from(device.length)];
        LineRecord {
            channel: channel.number,
            device: channel.device,
            device_name: name.escape_ascii().to_string(),
            unit: channel.unit,
            n: channel.n,
            positions: start..at,
        }
    };
    let open = usize::from(tables.channel_count);
    tables.channels[..open].iter().map(record).collect()
}

fn segment(tables: &Tables, row: usize, line: &[LineRecord]) -> Segment {
    let chain = &tables.chain[..usize::from(tables.chain_length)];
    let link = chain.iter().position(|&other| usize::from(other) == row);
    let class = Class::of(tables.classes[row]).expect("good tables");
    let regions = match link {
        Some(link) => held(tables, link, class, line),
        None => vec![Region {
            offsets: 0..SEGMENT,
            what: match class {
                Class::PageZero => What::PageZero,
                Class::User => What::User,
                Class::Device => What::Device,
                _ => What::Free,
            },
        }],
    };
    Segment {
        number: tables.list[row],
        class,
        link,
        regions,
    }
}

/// The regions of a chain segment. "Position p < R is offset R-1-p of segment
/// 255. Else with q = p-R it is offset 16,383 - (q mod 16,384) of chain segment
/// 1 + q div 16,384": position `first + d` is offset `top - 1 - d`.
fn held(tables: &Tables, link: usize, class: Class, line: &[LineRecord]) -> Vec<Region> {
    let r = usize::from(tables.r);
    let cold_r = usize::from(tables.cold_r);
    let (first, top) = match link.checked_sub(1) {
        None => (0, r),
        Some(further) => (r + further * SEGMENT, SEGMENT),
    };
    let mut regions = Vec::new();
    if link == 0 {
        regions.push((cold_r..SEGMENT, What::AboveColdR));
        regions.push((r..cold_r, What::Linked));
    }
    let mut bottom = top;
    for (row, record) in line.iter().enumerate() {
        let start = record.positions.start.max(first);
        let end = record.positions.end.min(first + top);
        if start < end {
            bottom = top - (end - first);
            let offsets = bottom..top - (start - first);
            let positions = start..end;
            regions.push((offsets, What::Record { row, positions }));
        }
    }
    let user = match class {
        Class::Shared => usize::from(tables.user_boundary),
        _ => 0,
    };
    regions.push((user..bottom, What::Room));
    regions.push((0..user, What::User));
    regions
        .into_iter()
        .filter(|(offsets, _)| !offsets.is_empty())
        .map(|(offsets, what)| Region { offsets, what })
        .collect()
}

#[cfg(test)]
mod tests {
    use super::*;
    use crate::encode;

    fn after(text: &str) -> Ram {
        let log = encode(text.as_bytes()).unwrap();
        map(&log, At::End).unwrap().ram.unwrap()
    }

    const START: &str = "start 11074 252 253 254 255\n";

    fn regions(segment: &Segment) -> Vec<(usize, usize, String)> {
        segment
            .regions
            .iter()
            .map(|Region { offsets, what }| (offsets.start, offsets.end, format!("{what:?}")))
            .collect()
    }

    #[test]
    fn a_fresh_start() {
        let ram = after(START);
        let classes: Vec<_> = ram.segments.iter().map(|segment| segment.class).collect();
        let expected = [Class::PageZero, Class::Free, Class::Free, Class::System];
        assert_eq!(classes, expected);
        assert_eq!(
            ram.exos,
            Boundary {
                segment: 255,
                offset: 11_074
            }
        );
        assert_eq!(ram.user, None);
        assert_eq!(
            regions(&ram.segments[3]),
            [
                (11_074, 16_384, "AboveColdR".to_string()),
                (0, 11_074, "Room".to_string())
            ]
        );
    }

    #[test]
    fn a_record_over_two_segments() {
        let ram = after(&format!("{START}open 5 0 11059 \"VIDEO:\""));
        assert_eq!(ram.chain, [255, 254]);
        assert_eq!(
            regions(&ram.segments[3])[1],
            (
                0,
                11_074,
                "Record { row: 0, positions: 0..11074 }".to_string()
            )
        );
        assert_eq!(
            regions(&ram.segments[2]),
            [
                (
                    16_383,
                    16_384,
                    "Record { row: 0, positions: 11074..11075 }".to_string()
                ),
                (0, 16_383, "Room".to_string())
            ]
        );
    }

    #[test]
    fn a_shared_segment_and_linked_devices() {
        let ram = after(&format!(
            "{START}link 74 \"DISK\"\nopen 5 0 84 \"DISK:\"\nallocate user\nallocate user\n\
             allocate user\nset user boundary 10000\nopen 6 0 0 \"DISK:\""
        ));
        assert_eq!(
            regions(&ram.segments[3]),
            [
                (11_074, 16_384, "AboveColdR".to_string()),
                (11_000, 11_074, "Linked".to_string()),
                (
                    10_900,
                    11_000,
                    "Record { row: 0, positions: 0..100 }".to_string()
                ),
                (
                    10_884,
                    10_900,
                    "Record { row: 1, positions: 100..116 }".to_string()
                ),
                (10_000, 10_884, "Room".to_string()),
                (0, 10_000, "User".to_string())
            ]
        );
        assert_eq!(
            ram.numbers(),
            [
                "R 11000, cold R 11074, T 116, chain 255",
                "EXOS boundary 10884 of 255, user boundary 10000 of 255"
            ]
        );
        assert_eq!(
            ram.marks(255),
            [
                (11_000, "R"),
                (10_884, "EXOS boundary"),
                (10_000, "user boundary")
            ]
        );
        assert_eq!(ram.segments[3].role(), "shared, chain segment 0");
        assert_eq!(ram.line[1].device_name, "DISK");
    }

    #[test]
    fn the_kth_record_and_past_the_end() {
        let log = encode(format!("{START}close 5\nraw 09").as_bytes()).unwrap();
        let title = |at| map(&log, at).map(|map| map.title);
        let after = At::After;
        assert_eq!(title(after(0)).unwrap(), "RAM before any of 3 records");
        assert_eq!(title(after(1)).unwrap(), "RAM after record 1 of 3");
        assert_eq!(title(At::End).unwrap(), "RAM after record 3 of 3");
        assert_eq!(
            title(after(4)).unwrap_err().said_of("x"),
            "no record 4: x has 3 records"
        );
        let first = map(&log, after(0)).unwrap();
        assert_eq!((first.lines.len(), first.ram), (0, None));
        let second = map(&log, after(2)).unwrap();
        assert_eq!(second.lines, ["close 5", "3 CHANNEL, a 0, b 0"]);
        let third = map(&log, after(3)).unwrap();
        assert_eq!(third.lines[1], "bad: the listing ends here");
        assert_eq!(third.ram, second.ram);
    }

    /// A maker's log of two channels; the board is wrong in the second.
    const MAKERS: &str = "start 11074 252 253 254 255\nreply 0 4 11074\n\
                          open 5 0 84 \"VIDEO:\"\nreply 0 0 0\n\
                          open 6 0 0 \"VIDEO:\"\nreply 4 0 0\n\
                          read 5 0 4096\nreply 0 0 2 0001\n";

    #[test]
    fn replies_are_no_events() {
        let log = encode(MAKERS.as_bytes()).unwrap();
        let end = map(&log, At::End).unwrap();
        assert_eq!(end.title, "RAM after record 4 (event 6, reply 7) of 4");
        assert_eq!(end.ram.unwrap().line.len(), 2);
        let second = map(&log, At::After(2)).unwrap();
        assert_eq!(second.title, "RAM after record 2 (event 2, reply 3) of 4");
        assert_eq!(
            second.lines,
            [
                "open 5 0 84 \"VIDEO:\"",
                "the Rust kernel's answer: 0 done, a 0, b 0",
                "the log's reply: 0 done, a 0, b 0"
            ]
        );
        assert_eq!(second.ram.unwrap().line.len(), 1);
    }

    #[test]
    fn the_ram_in_which_an_event_was_asked() {
        let log = encode(MAKERS.as_bytes()).unwrap();
        for number in [4, 5] {
            let third = map(&log, At::Reply(number)).unwrap();
            assert_eq!(third.title, "RAM before record 3 (event 4, reply 5) of 4");
            assert_eq!(
                third.lines,
                [
                    "open 6 0 0 \"VIDEO:\"",
                    "the Rust kernel's answer: 0 done, a 0, b 0",
                    "the log's reply: 4 EXISTS, a 0, b 0"
                ]
            );
            assert_eq!(third.ram.unwrap().line.len(), 1);
        }
        let first = map(&log, At::Reply(1)).unwrap();
        assert_eq!(first.ram, None);
        assert_eq!(first.title, "RAM before record 1 (event 0, reply 1) of 4");
        assert_eq!(
            map(&log, At::Reply(8)).unwrap_err().said_of("x"),
            "no record 5 (event 8, reply 9): x has 4 records"
        );
    }
}
