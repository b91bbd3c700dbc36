//! What the pictures show, against the bytes of the RAM.

use crate::logs::random_log;
use crate::random::Random;
use exos_kernel::{Machine, SEGMENT};
use exoslog::{answer_to, map, records, svg, terminal, At, Class, Map, Ram, What};

fn after(log: &[u8]) -> (Map, Machine) {
    let mut machine = Machine::default();
    for record in records(log) {
        answer_to(&mut machine, record);
    }
    (map(log, At::End).unwrap(), machine)
}

#[test]
fn every_byte_of_every_segment_is_in_one_region() {
    let mut random = Random::new(4, 0);
    for _ in 0..2_000 {
        let ram = after(&random_log(&mut random)).0.ram.unwrap();
        for segment in &ram.segments {
            let mut top = SEGMENT;
            for region in &segment.regions {
                assert_eq!(region.offsets.end, top);
                assert!(!region.offsets.is_empty());
                top = region.offsets.start;
            }
            assert_eq!(top, 0);
        }
    }
}

/// "Heading (build), little-endian: length L in 4 bytes, kind 1 in 2 bytes,
/// channel, device, unit, 7 zero bytes."
#[test]
fn each_record_has_its_heading_where_the_picture_shows_it() {
    let mut random = Random::new(5, 0);
    let mut seen = 0;
    for _ in 0..2_000 {
        let (map, machine) = after(&random_log(&mut random));
        let ram = map.ram.unwrap();
        let line = bytes_of_the_line(&ram, machine.ram());
        assert_eq!(line.len(), ram.t);
        for record in &ram.line {
            let length = record.positions.len() as u32;
            let mut heading = length.to_le_bytes().to_vec();
            heading.extend([1, 0, record.channel, record.device, record.unit]);
            heading.extend([0; 7]);
            assert_eq!(line[record.positions.clone()][..16], heading);
            seen += 1;
        }
    }
    assert!(seen > 3_000, "{seen}");
}

/// The line's bytes as the regions give them, position by position.
fn bytes_of_the_line(ram: &Ram, bytes: &[u8]) -> Vec<u8> {
    let mut line = vec![0; ram.t];
    for (row, segment) in ram.segments.iter().enumerate() {
        for region in &segment.regions {
            if let What::Record { positions, .. } = &region.what {
                assert_eq!(positions.len(), region.offsets.len());
                let places = region.offsets.clone().rev();
                for (position, offset) in positions.clone().zip(places) {
                    line[position] = bytes[row * SEGMENT + offset];
                }
            }
        }
    }
    line
}

#[test]
fn the_boundaries_are_edges_of_regions() {
    let mut random = Random::new(6, 0);
    let mut shared = 0;
    for _ in 0..2_000 {
        let ram = after(&random_log(&mut random)).0.ram.unwrap();
        for segment in &ram.segments {
            for (offset, name) in ram.marks(segment.number) {
                let edge = |region: &exoslog::Region| {
                    region.offsets.start == offset || region.offsets.end == offset
                };
                assert!(segment.regions.iter().any(edge), "{name} {offset}");
            }
            shared += usize::from(segment.class == Class::Shared);
        }
        let below_exos = |what: &What| matches!(what, What::Room | What::User);
        let last = ram
            .segments
            .iter()
            .find(|segment| segment.number == ram.exos.segment);
        for region in &last.unwrap().regions {
            let below = region.offsets.end <= ram.exos.offset;
            assert_eq!(below_exos(&region.what), below, "{region:?}");
        }
    }
    assert!(shared > 100, "{shared}");
}

#[test]
fn pictures_of_random_logs_have_80_columns_and_whole_elements() {
    let mut random = Random::new(7, 0);
    for _ in 0..300 {
        let map = after(&random_log(&mut random)).0;
        let text = terminal(&map);
        assert!(text.lines().all(|line| line.len() <= 80), "{text}");
        let drawing = svg(&map);
        assert!(drawing.ends_with("</svg>\n"));
        assert!(!drawing.contains("NaN") && !drawing.contains("inf"));
        for element in ["rect", "path", "text"] {
            assert!(drawing.contains(&format!("<{element} ")));
        }
    }
}

/// The pictures of the logs in the data folder, as they were looked at.
#[test]
fn pictures_to_the_letter() {
    let pictures = [
        (
            include_bytes!("../data/example.words").as_slice(),
            include_str!("../data/example.map"),
        ),
        (
            include_bytes!("../data/shared.words"),
            include_str!("../data/shared.map"),
        ),
        (
            include_bytes!("../data/crowded.words"),
            include_str!("../data/crowded.map"),
        ),
    ];
    for (log, picture) in pictures {
        let log = exoslog::encode(log).unwrap();
        assert_eq!(terminal(&map(&log, At::End).unwrap()), picture);
    }
}
