//! A segment as a column to scale, with its labels.

use super::drawing::{Drawing, Text};
use super::{fill, CHARACTER, MARGIN, ROW};
use crate::map::{Ram, Region, Segment};
use crate::words::counted;
use exos_kernel::SEGMENT;
use std::cmp::Reverse;
use std::iter::repeat_n;

/// The least height of a column; more where its labels need it.
const LEAST_HEIGHT: f64 = 512.0;
/// From a label to the next.
const LABEL: f64 = 15.0;
/// The width of a column.
const BOX: f64 = 90.0;
/// From a column to the labels on its left and on its right.
const LEADERS: [f64; 2] = [24.0, 40.0];
/// Between a segment's labels and the next segment's.
const GAP: f64 = 10.0;
/// From a column to its heading.
const HEADING: f64 = 14.0;

/// Where a segment is drawn, with its labels from top to bottom.
pub(super) struct Column<'a> {
    segment: &'a Segment,
    /// R and the boundaries.
    marks: Vec<(usize, &'static str)>,
    /// The labels on the left with the heights they tell of.
    left: Vec<(f64, String)>,
    /// The labels on the right, one for each region.
    right: Vec<String>,
    x: f64,
    top: f64,
    height: f64,
    /// Where the next one starts.
    end: f64,
}

/// The segments in list order, side by side.
pub(super) fn columns(ram: &Ram, top: f64) -> Vec<Column<'_>> {
    let labels = ram.segments.iter().map(|segment| segment.regions.len());
    let height = LEAST_HEIGHT.max(LABEL * labels.max().unwrap_or(0) as f64);
    let mut columns = Vec::new();
    let mut x = MARGIN;
    for segment in &ram.segments {
        let column = Column::new(ram, segment, x, top + HEADING + ROW, height);
        x = column.end;
        columns.push(column);
    }
    columns
}

impl<'a> Column<'a> {
    fn new(ram: &Ram, segment: &'a Segment, start: f64, top: f64, height: f64) -> Column<'a> {
        let mut marks = ram.marks(segment.number);
        marks.sort_by_key(|&(offset, _)| Reverse(offset));
        let words = |region: &Region| {
            let offsets = &region.offsets;
            let (first, last) = (offsets.start, offsets.end - 1);
            let words = region.what.words(&ram.line);
            format!(
                "{words}: {first} to {last}, {}",
                counted(offsets.len(), "byte")
            )
        };
        let mut left = vec![(top, (SEGMENT - 1).to_string())];
        for (offset, name) in &marks {
            left.push((edge(top, height, *offset), format!("{name} {offset}")));
        }
        left.push((top + height, "0".to_string()));
        let right: Vec<String> = segment.regions.iter().map(words).collect();
        let x = start + LEADERS[0] + longest(left.iter().map(|(_, words)| words));
        let end = x + BOX + LEADERS[1] + longest(right.iter()) + GAP;
        Column {
            segment,
            marks,
            left,
            right,
            x,
            top,
            height,
            end,
        }
    }

    fn y(&self, offset: usize) -> f64 {
        edge(self.top, self.height, offset)
    }

    /// Where it ends below.
    pub(super) fn bottom(&self) -> f64 {
        self.top + self.height
    }

    /// Where it ends on the right, its labels too.
    pub(super) fn end(&self) -> f64 {
        self.end
    }

    pub(super) fn draw(&self, drawing: &mut Drawing) {
        let y = self.top - HEADING;
        let number = format!("segment {}", self.segment.number);
        drawing.text(Text::at(self.x, y - ROW, 13).bold(), &number);
        drawing.text(Text::at(self.x, y, 13), &self.segment.role());
        for region in &self.segment.regions {
            let y = self.y(region.offsets.end);
            let height = self.y(region.offsets.start) - y;
            drawing.rect(self.x, y, BOX, height, fill(&region.what));
        }
        self.draw_right(drawing);
        self.draw_left(drawing);
    }

    /// What each region is.
    fn draw_right(&self, drawing: &mut Drawing) {
        let middle =
            |region: &Region| (self.y(region.offsets.start) + self.y(region.offsets.end)) / 2.0;
        let wanted: Vec<f64> = self.segment.regions.iter().map(middle).collect();
        let places = spread(&wanted, self.top, self.bottom());
        let x = self.x + BOX;
        let far = x + LEADERS[1] - 4.0;
        for ((words, from), to) in self.right.iter().zip(wanted).zip(places) {
            drawing.leader((x, from), x + 5.0, (far, to));
            drawing.text(Text::at(far + 4.0, to + 4.0, 11), words);
        }
    }

    /// The ends of the offsets, R and the boundaries, the latter with an arrow.
    fn draw_left(&self, drawing: &mut Drawing) {
        let wanted: Vec<f64> = self.left.iter().map(|(y, _)| *y).collect();
        let places = spread(&wanted, self.top, self.bottom());
        let x = self.x;
        let far = x - LEADERS[0] + 4.0;
        for ((from, words), to) in self.left.iter().zip(places) {
            drawing.leader((x, *from), x - 8.0, (far, to));
            drawing.text(Text::at(far - 4.0, to + 4.0, 11).to_the_left(), words);
        }
        for (offset, _) in &self.marks {
            drawing.arrow(x, self.y(*offset));
        }
    }
}

/// The height of the edge under an offset's byte.
fn edge(top: f64, height: f64, offset: usize) -> f64 {
    top + height * (1.0 - offset as f64 / SEGMENT as f64)
}

/// About the width of the longest of some labels.
fn longest<'a>(labels: impl Iterator<Item = &'a String>) -> f64 {
    CHARACTER * labels.map(String::len).max().unwrap_or(0) as f64
}

/// Places for labels as near as can be to those wanted, which rise: a label's
/// height apart, and between top and bottom if there are not too many.
fn spread(wanted: &[f64], top: f64, bottom: f64) -> Vec<f64> {
    // with a label's height taken off for each label above, places need only
    // not fall: labels that would are held together at their mean
    let mut held: Vec<(f64, usize)> = Vec::new();
    for (above, place) in wanted.iter().enumerate() {
        let mut group = (place - LABEL * above as f64, 1);
        while let Some(&(mean, count)) = held.last().filter(|(mean, _)| *mean > group.0) {
            held.pop();
            let both = count + group.1;
            let sum = mean * count as f64 + group.0 * group.1 as f64;
            group = (sum / both as f64, both);
        }
        held.push(group);
    }
    let most = bottom - LABEL * wanted.len().saturating_sub(1) as f64;
    held.iter()
        .flat_map(|&(mean, count)| repeat_n(mean.min(most).max(top), count))
        .enumerate()
        .map(|(above, place)| place + LABEL * above as f64)
        .collect()
}

#[cfg(test)]
mod tests {
    use super::*;

    #[test]
    fn columns_are_to_scale() {
        assert_eq!(edge(100.0, 512.0, 0), 612.0);
        assert_eq!(edge(100.0, 512.0, 8_192), 356.0);
        assert_eq!(edge(100.0, 512.0, 16_384), 100.0);
    }

    #[test]
    fn labels_keep_apart_and_in_order() {
        assert_eq!(spread(&[100.0, 200.0], 0.0, 512.0), [100.0, 200.0]);
        assert_eq!(
            spread(&[100.0, 100.0, 100.0, 400.0], 0.0, 512.0),
            [85.0, 100.0, 115.0, 400.0]
        );
        assert_eq!(
            spread(&[510.0, 511.0, 512.0], 0.0, 512.0),
            [482.0, 497.0, 512.0]
        );
        assert_eq!(spread(&[0.0, 1.0], 0.0, 512.0), [0.0, 15.0]);
        assert_eq!(spread(&[], 0.0, 512.0), []);
    }
}
