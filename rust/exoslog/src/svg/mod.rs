//! The picture as SVG: each segment a column to scale, offset 0 at the bottom.

mod column;
mod drawing;

use crate::map::{Map, Ram, What};
use column::{columns, Column};
use drawing::{Drawing, Text};

/// The space around the picture.
const MARGIN: f64 = 24.0;
/// The least width inside of it: the longest words have room.
const LEAST_WIDTH: f64 = 760.0;
/// The most characters of a line under the title.
const LONGEST_WORDS: usize = 90;
/// From a row of text to the next.
const ROW: f64 = 18.0;
/// About the width of a character of a label.
const CHARACTER: f64 = 6.4;

/// The fills of records in line order, dark and light in turn.
const RECORDS: [&str; 4] = ["#24557f", "#f2b66d", "#5b8c3e", "#f7e39c"];

/// Only records are of one colour, so that they stand out in grey too.
fn fill(what: &What) -> &'static str {
    match what {
        What::PageZero => "url(#pagezero)",
        What::Free => "url(#free)",
        What::User => "url(#user)",
        What::Device => "url(#device)",
        What::Room => "#ffffff",
        What::Linked => "url(#linked)",
        What::AboveColdR => "url(#above)",
        What::Record { row, .. } => RECORDS[row % RECORDS.len()],
    }
}

/// The picture of a map as an SVG document.
pub fn svg(map: &Map) -> String {
    let mut drawing = Drawing::default();
    let mut y = MARGIN + 14.0;
    drawing.text(Text::at(MARGIN, y, 18).bold(), &map.title);
    for line in head(map) {
        y += ROW + 2.0;
        drawing.text(Text::at(MARGIN, y, 13), &line);
    }
    let mut end = MARGIN + LEAST_WIDTH;
    if let Some(ram) = &map.ram {
        let columns = columns(ram, y + 2.0 * ROW);
        for column in &columns {
            column.draw(&mut drawing);
            end = end.max(column.end());
        }
        y = columns.first().map_or(y, Column::bottom);
        y = draw_legend(&mut drawing, y + 2.0 * ROW, end);
        y = draw_line(&mut drawing, ram, y + 2.0 * ROW);
    }
    drawing.document(&map.title, end + MARGIN, y + MARGIN)
}

/// The lines under the title.
fn head(map: &Map) -> Vec<String> {
    let mut lines = Vec::new();
    lines.extend(map.lines.iter().map(|line| cut(line)));
    match &map.ram {
        Some(ram) => lines.extend(ram.numbers()),
        None => lines.push("no RAM: no start was accepted".to_string()),
    }
    lines
}

/// Words that are too long are cut.
fn cut(words: &str) -> String {
    if words.chars().count() <= LONGEST_WORDS {
        return words.to_string();
    }
    let start: String = words.chars().take(LONGEST_WORDS).collect();
    format!("{start}...")
}

/// The legend, in as many rows as the end on the right asks for; where it ends
/// below.
fn draw_legend(drawing: &mut Drawing, top: f64, end: f64) -> f64 {
    let (mut x, mut y) = (MARGIN, top);
    let mut entry = |fills: &[&str], words: &str| {
        let swatches = 30.0 * fills.len() as f64;
        let width = swatches + 18.0 + CHARACTER * words.len() as f64;
        if x + width > end {
            x = MARGIN;
            y += ROW + 4.0;
        }
        for (place, fill) in fills.iter().enumerate() {
            drawing.rect(x + 30.0 * place as f64, y - 12.0, 24.0, 15.0, fill);
        }
        drawing.text(Text::at(x + swatches, y, 12), words);
        x += width;
    };
    for what in &What::KINDS {
        entry(&[fill(what)], &what.words(&[]));
    }
    entry(&RECORDS, "channels' records in line order");
    y
}

/// The records of the line, a row for each; where they end below.
fn draw_line(drawing: &mut Drawing, ram: &Ram, top: f64) -> f64 {
    let Some(last) = ram.t.checked_sub(1) else {
        drawing.text(Text::at(MARGIN, top, 13), "the line: no open channel");
        return top;
    };
    let title = format!("the line: positions 0 to {last}");
    drawing.text(Text::at(MARGIN, top, 13).bold(), &title);
    let mut y = top + ROW + 4.0;
    let heads = ["channel", "n", "L", "positions", "unit", "device"];
    draw_row(drawing, y, &heads.map(str::to_string));
    for (row, record) in ram.line.iter().enumerate() {
        y += ROW;
        let positions = &record.positions;
        drawing.rect(MARGIN, y - 11.0, 14.0, 13.0, RECORDS[row % RECORDS.len()]);
        let cells = [
            record.channel.to_string(),
            record.n.to_string(),
            positions.len().to_string(),
            format!("{} to {}", positions.start, positions.end - 1),
            record.unit.to_string(),
            format!("{} {}", record.device, record.device_name),
        ];
        draw_row(drawing, y, &cells);
    }
    y
}

/// A row of the line's table: the numbers end at their places, the device
/// starts at its place.
fn draw_row(drawing: &mut Drawing, y: f64, cells: &[String; 6]) {
    let [numbers @ .., device] = cells;
    for (cell, end) in numbers.iter().zip([80.0, 140.0, 200.0, 330.0, 375.0]) {
        drawing.text(Text::at(MARGIN + end, y, 12).to_the_left(), cell);
    }
    drawing.text(Text::at(MARGIN + 390.0, y, 12), device);
}

#[cfg(test)]
mod tests {
    use super::*;
    use crate::{encode, map, At};

    fn picture(text: &str) -> String {
        svg(&map(&encode(text.as_bytes()).unwrap(), At::End).unwrap())
    }

    #[test]
    fn a_picture_says_what_the_regions_are() {
        let picture = picture("start 11074 253 254 255\nopen 5 0 11059 \"VIDEO:<&>\"");
        for words in [
            ">RAM after record 2 of 2</text>",
            ">open 5 0 11059 &quot;VIDEO:&lt;&amp;&gt;&quot;</text>",
            ">segment 254</text>",
            ">system, chain segment 1</text>",
            ">channel 5: 0 to 11073, 11074 bytes</text>",
            ">channel 5: 16383 to 16383, 1 byte</text>",
            ">room: 0 to 16382, 16383 bytes</text>",
            ">EXOS boundary 16383</text>",
            ">R 11074</text>",
            ">the line: positions 0 to 11074</text>",
        ] {
            assert!(picture.contains(words), "{words}");
        }
    }

    #[test]
    fn bytes_moved() {
        let picture = picture("start 256 254 255\nopen 5 0 0 \"NET:\"\nlink 0 \"A\"");
        for words in [
            ">0 done, a 3, b 256; 0 bytes moved</text>",
            ">0 bytes moved in all</text>",
        ] {
            assert!(picture.contains(words), "{words}");
        }
    }

    #[test]
    fn long_words_are_cut() {
        let picture = picture(&format!("write 5 0 {}", "ab".repeat(100)));
        let words = format!(">write 5 0 {}...</text>", "ab".repeat(40));
        assert!(picture.contains(&words));
    }

    #[test]
    fn no_ram_before_a_start() {
        assert!(picture("").contains(">no RAM: no start was accepted</text>"));
    }
}
