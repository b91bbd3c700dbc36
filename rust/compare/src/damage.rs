//! Images with one field off, several off, or all bytes random.

use crate::protocol::{at, Image, CHANNEL, DEVICE, IMAGE};
use crate::view::View;
use exos_kernel::{
    Tables, LEAST_R, MOST_R, NAME, ROWS_OF_CHANNELS, ROWS_OF_DEVICES, ROWS_OF_SEGMENTS,
};
use exos_random::Random;

/// A field of the image: where it is, its rows, and where they are counted.
struct Field {
    at: usize,
    row: usize,
    rows: usize,
    count: Option<usize>,
}

const fn number(at: usize, width: usize) -> Field {
    Field {
        at,
        row: width,
        rows: 1,
        count: None,
    }
}

const fn rows(at: usize, row: usize, rows: usize, count: usize) -> Field {
    Field {
        at,
        row,
        rows,
        count: Some(count),
    }
}

const FIELDS: [Field; 15] = [
    number(at::SEGMENTS, 1),
    rows(at::LIST, 1, ROWS_OF_SEGMENTS, at::SEGMENTS),
    rows(at::CLASSES, 1, ROWS_OF_SEGMENTS, at::SEGMENTS),
    number(at::CHAIN_LENGTH, 1),
    rows(at::CHAIN, 1, ROWS_OF_SEGMENTS, at::CHAIN_LENGTH),
    number(at::USER_BOUNDARY, 2),
    number(at::R, 2),
    number(at::COLD_R, 2),
    number(at::CHANNEL_COUNT, 1),
    rows(at::CHANNELS, CHANNEL, ROWS_OF_CHANNELS, at::CHANNEL_COUNT),
    number(at::DEVICE_COUNT, 1),
    rows(at::DEVICES, DEVICE, ROWS_OF_DEVICES, at::DEVICE_COUNT),
    rows(at::DEFAULT_NAME, 1, NAME, at::DEFAULT_LENGTH),
    number(at::DEFAULT_LENGTH, 1),
    number(at::DEFAULT_UNIT, 1),
];

/// Damages the image of good tables. It may be good still.
pub fn damage(random: &mut Random, tables: &Tables, image: &mut Image) {
    match random.below(16) {
        0 => image.copy_from_slice(&random.bytes(IMAGE)),
        1 => image.fill(0),
        2..=4 => {
            for _ in 0..2 + random.below(4) {
                spoil(random, image);
            }
        }
        5..=6 => set_edge(random, tables, image),
        _ => spoil(random, image),
    }
}

/// Sets a word at or just beyond what good tables may have.
fn set_edge(random: &mut Random, tables: &Tables, image: &mut Image) {
    let boundary = View(tables).boundary() as u16;
    let edges = [
        (at::USER_BOUNDARY, boundary),
        (at::USER_BOUNDARY, boundary + 1),
        (at::R, LEAST_R - 1),
        (at::R, MOST_R + 1),
        (at::R, tables.cold_r),
        (at::R, tables.cold_r + 1),
        (at::COLD_R, tables.r),
        (at::COLD_R, tables.r - 1),
        (at::COLD_R, MOST_R),
        (at::COLD_R, MOST_R + 1),
    ];
    let (at, value) = random.pick(&edges);
    image[at..at + 2].copy_from_slice(&value.to_le_bytes());
}

/// Changes one row of one field.
fn spoil(random: &mut Random, image: &mut Image) {
    let field = &FIELDS[random.below(FIELDS.len())];
    let (row, other) = (
        some_row(random, field, image),
        some_row(random, field, image),
    );
    let byte = row + random.below(field.row);
    match random.below(10) {
        0 => image[byte] = random.byte(),
        1 => image[byte] = random.pick(&[0, 1, 2, 3, 4, 5, 28, 29, 31, 32, 33, 254, 255]),
        2 => image.copy_within(other..other + field.row, row),
        3 => (0..field.row).for_each(|at| image.swap(row + at, other + at)),
        4 => image[row..row + field.row].fill(0),
        5 => image[byte] ^= 0x20,
        6 => image[byte] = image[byte].wrapping_sub(1),
        _ => image[byte] = image[byte].wrapping_add(1),
    }
}

/// The start of a row: mostly of a used one or of the first unused one.
fn some_row(random: &mut Random, field: &Field, image: &Image) -> usize {
    let used = field.count.map_or(0, |count| usize::from(image[count]));
    let rows = if random.one_in(4) {
        field.rows
    } else {
        field.rows.min(used + 1)
    };
    field.at + field.row * random.below(rows)
}

#[cfg(test)]
mod tests {
    use super::*;
    use crate::protocol::{image_of, tables_of};
    use exos_kernel::{call, good, Call};

    #[test]
    fn the_fields_are_the_image() {
        let mut end = 0;
        for field in &FIELDS {
            assert_eq!(field.at, end);
            end += field.row * field.rows;
        }
        assert_eq!(end, IMAGE);
    }

    #[test]
    fn most_damaged_tables_are_not_good() {
        let mut tables = Tables::default();
        let start = Call::Start {
            r: 300,
            list: &[9, 99, 255],
        };
        call(&mut tables, &mut [0; 49_152], start, &mut []);
        let mut random = Random::new(1, 1);
        let mut goods = 0;
        for _ in 0..1_000 {
            let mut image = image_of(&tables);
            damage(&mut random, &tables, &mut image);
            goods += usize::from(good(&tables_of(&image)));
        }
        assert!((20..300).contains(&goods), "{goods}");
    }
}
