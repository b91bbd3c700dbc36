//! The picture as plain text, at most 80 columns wide.

use crate::map::{Map, Ram, Region, Segment, What};
use crate::words::{counted, cut};
use exos_kernel::SEGMENT;

/// The cells of a segment's bar; a cell is 256 bytes.
const CELLS: usize = 64;
const CELL: usize = SEGMENT / CELLS;
const WIDTH: usize = 80;

/// The picture of a map as plain text.
pub fn terminal(map: &Map) -> String {
    let mut lines = vec![map.title.clone()];
    lines.extend(map.lines.iter().map(|line| format!("  {line}")));
    lines.push(String::new());
    match &map.ram {
        Some(ram) => draw(ram, &mut lines),
        None => lines.push("no RAM: no start was accepted".to_string()),
    }
    let mut text = String::new();
    for line in &lines {
        text.push_str(&cut(line.trim_end(), WIDTH));
        text.push('\n');
    }
    text
}

fn draw(ram: &Ram, lines: &mut Vec<String>) {
    lines.extend(ram.numbers());
    lines.push(String::new());
    lines.push(format!(
        "{:7}0{:15}4096{:12}8192{:12}12288{:6}16383",
        "", "", "", "", ""
    ));
    for segment in &ram.segments {
        draw_segment(ram, segment, lines);
    }
    draw_line(ram, lines);
    lines.push(String::new());
    lines.extend(legend());
}

fn legend() -> [String; 3] {
    let kind = |what: &What| format!("{} {}", sign(what), what.words(&[]));
    let joined = |kinds: &[What]| kinds.iter().map(kind).collect::<Vec<_>>().join(", ");
    let (some, others) = What::KINDS.split_at(5);
    [
        "a cell of a bar is 256 bytes: A and so on channels, * several channels,".to_string(),
        joined(some) + ",",
        joined(others),
    ]
}

fn draw_segment(ram: &Ram, segment: &Segment, lines: &mut Vec<String>) {
    lines.push(format!("segment {}: {}", segment.number, segment.role()));
    let bar: String = (0..CELLS).map(|cell| shown(segment, cell)).collect();
    lines.push(format!("      |{bar}|"));
    for (offset, name) in ram.marks(segment.number) {
        lines.push(mark(offset, name));
    }
    for region in &segment.regions {
        lines.push(row(ram, region));
    }
    lines.push(String::new());
}

/// What a cell shows: a channel if it has a byte there, else what has the most.
fn shown(segment: &Segment, cell: usize) -> char {
    let bytes = |region: &Region| {
        let start = region.offsets.start.max(cell * CELL);
        let end = region.offsets.end.min((cell + 1) * CELL);
        end.saturating_sub(start)
    };
    let here = || segment.regions.iter().filter(|region| bytes(region) > 0);
    let channels = here().filter(|region| matches!(region.what, What::Record { .. }));
    match channels.collect::<Vec<_>>()[..] {
        [] => here()
            .max_by_key(|region| bytes(region))
            .map_or(' ', |region| sign(&region.what)),
        [region] => sign(&region.what),
        _ => '*',
    }
}

fn sign(what: &What) -> char {
    match what {
        What::PageZero => 'z',
        What::Free => '.',
        What::User => 'u',
        What::Device => 'd',
        What::AboveColdR => '=',
        What::Linked => 'l',
        What::Record { row, .. } => letter(*row),
        What::Room => '_',
    }
}

/// The channels' letters in line order: A to Z, then 1 to 6.
fn letter(row: usize) -> char {
    char::from(b"ABCDEFGHIJKLMNOPQRSTUVWXYZ123456"[row % 32])
}

/// A mark under the bar, its name on the side that has more place.
fn mark(offset: usize, name: &str) -> String {
    let column = 7 + offset / CELL;
    let label = format!("{name} {offset}");
    if column > WIDTH / 2 {
        format!("{:>column$} ^", label, column = column - 1)
    } else {
        format!("{:column$}^ {label}", "")
    }
}

fn row(ram: &Ram, region: &Region) -> String {
    let offsets = &region.offsets;
    let letter = match &region.what {
        What::Record { row, .. } => letter(*row),
        _ => ' ',
    };
    let positions = match &region.what {
        What::Record { positions, .. } => {
            format!(", positions {} to {}", positions.start, positions.end - 1)
        }
        _ => String::new(),
    };
    format!(
        "{:11} to {:5} {:>12}  {letter} {}{positions}",
        offsets.start,
        offsets.end - 1,
        counted(offsets.len(), "byte"),
        region.what.words(&ram.line)
    )
}

fn draw_line(ram: &Ram, lines: &mut Vec<String>) {
    if ram.line.is_empty() {
        lines.push("the line: no open channel".to_string());
        return;
    }
    lines.push(format!("the line: positions 0 to {}", ram.t - 1));
    lines.push(format!(
        "  {:>9} {:>5} {:>5}  {:<16} {:>4} device",
        "channel", "n", "L", "positions", "unit"
    ));
    for (row, record) in ram.line.iter().enumerate() {
        let positions = &record.positions;
        let range = format!("{} to {}", positions.start, positions.end - 1);
        lines.push(format!(
            "  {} {:>7} {:>5} {:>5}  {range:<16} {:>4} {} {}",
            letter(row),
            record.channel,
            record.n,
            positions.len(),
            record.unit,
            record.device,
            record.device_name
        ));
    }
}

#[cfg(test)]
mod tests {
    use super::*;
    use crate::{encode, map, At};

    fn picture(text: &str) -> String {
        terminal(&map(&encode(text.as_bytes()).unwrap(), At::End).unwrap())
    }

    #[test]
    fn no_ram_before_a_start() {
        assert_eq!(
            picture(""),
            "RAM before any of 0 records\n\nno RAM: no start was accepted\n"
        );
    }

    #[test]
    fn a_shared_segment_to_the_letter() {
        let text = "start 11074 253 255\nlink 74 \"DISK\"\nopen 5 0 84 \"NET-3:\"\n\
                    open 17 0 4000 \"DISK:\"\nallocate user\nset user boundary 4096";
        let expected = "\
RAM after record 6 of 6
  set user boundary 4096
  0 done, a 0, b 0
  0 bytes moved in all

R 11000, cold R 11074, T 4116, chain 255
EXOS boundary 6884 of 255, user boundary 4096 of 255

       0               4096            8192            12288      16383
segment 253: page zero
      |zzzzzzzzzzzzzzzzzzzzzzzzzzzzzzzzzzzzzzzzzzzzzzzzzzzzzzzzzzzzzzzz|
          0 to 16383  16384 bytes    page zero

segment 255: shared, chain segment 0
      |uuuuuuuuuuuuuuuu__________BBBBBBBBBBBBBBBB*=====================|
                                         R 11000 ^
                                 ^ EXOS boundary 6884
                       ^ user boundary 4096
      11074 to 16383   5310 bytes    above the cold R
      11000 to 11073     74 bytes    linked devices' RAM
      10900 to 10999    100 bytes  A channel 5, positions 0 to 99
       6884 to 10899   4016 bytes  B channel 17, positions 100 to 4115
       4096 to  6883   2788 bytes    room
          0 to  4095   4096 bytes    the user's

the line: positions 0 to 4115
    channel     n     L  positions        unit device
  A       5    84   100  0 to 99             3 1 NET
  B      17  4000  4016  100 to 4115         0 3 DISK

a cell of a bar is 256 bytes: A and so on channels, * several channels,
z page zero, . free, u the user's, d a device's, _ room,
l linked devices' RAM, = above the cold R
";
        assert_eq!(picture(text), expected);
    }

    #[test]
    fn the_widest_picture_has_80_columns() {
        let name = "W".repeat(28);
        let mut text = format!("start 16128 252 253 254 255\nlink 9 \"{name}\"\n");
        for channel in 223..=254 {
            text.push_str(&format!("open {channel} 0 1500 \"{name}-255:\"\n"));
        }
        text.push_str(&format!("link 9 \"{name}\"\n"));
        text.push_str(&format!("write 254 0 {}\n", "ab".repeat(1000)));
        let picture = picture(&text);
        assert!(picture.contains("\n  6     254  1500  1516  46996 to 48511    255 3 WWWW"));
        assert!(picture.contains("...\n  0 done, a 0, b 1000\n"));
        assert!(
            picture.contains("\n  48512 bytes moved in all, most 48512: record 35, link 9 \"WW")
        );
        assert!(picture.lines().all(|line| line.len() <= WIDTH));
    }

    #[test]
    fn a_small_record_is_seen() {
        let picture = picture("start 11074 254 255\nopen 5 0 0 \"VIDEO:\"");
        let bar = format!("      |{}A{}|", "_".repeat(43), "=".repeat(20));
        assert!(picture.contains(&bar), "{picture}");
    }
}
