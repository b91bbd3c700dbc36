//! A difference as a person reads it: a log in words with comments.

use crate::judge::Difference;
use crate::machine::Machine;
use crate::protocol::{tables_of, Case, Fault, Image, Reply, Request, Sort, IMAGE};
use crate::quietly::is_good;
use crate::writing_words::writing_words;
use exos_kernel::{Channel, Device, Tables, SEGMENT};
use exoslog::{hex, quoted, Class, Record, LONGEST};
use std::fmt::Write;

/// The most segments that the listing program lends.
const MOST_LISTED: usize = 4;

/// The records in 01's words, up to the one that differs. All else is comment:
/// the tables and RAM to begin with, the answers of both sides, what differs.
/// So `exoslog encode` reads the report back to the records.
pub fn report(case: &Case, found: &Difference) -> String {
    let advice = if is_listed(case) {
        ": paste it into a file for exoslog encode, and replay that by exos-listing"
    } else {
        ""
    };
    let (length, seed) = (case.ram_length, case.seed);
    let mut text = format!("# a log in words{advice}\n# RAM: {length} bytes, seed {seed}\n");
    let mut machine = Machine::of(case);
    let mut before = machine.tables.clone();
    text += &start_state(&case.image);
    for (row, request) in case.requests.iter().enumerate() {
        before = machine.tables.clone();
        let answered = answer(&machine.answer(request));
        let (row, said, length) = (row + 1, words(request), request.output);
        let lent = match request.sort {
            Sort::Event => "output",
            Sort::Writer => "buffer",
        };
        let _ = writeln!(text, "{said} # {row}, {lent} of {length}: {answered}");
    }
    let program = found
        .program
        .map_or("nothing".into(), |reply| answer(&reply));
    let _ = writeln!(text, "# the program: {program}");
    let _ = writeln!(text, "# differs: {}", found.fields().join(", "));
    text += &tables_in_words("the kernel's tables before that call", &before);
    text + &tables_in_words("the kernel's tables after it", &machine.tables)
}

/// Whether the listing program takes the case: from no tables, with the RAM that
/// each start asks for, and no more than events.
fn is_listed(case: &Case) -> bool {
    let fits = |list: usize| list <= MOST_LISTED && case.ram_length as usize == SEGMENT * list;
    let is_listed = |request: &Request| match request.event() {
        Some((256, body)) => fits(body.len().saturating_sub(2)),
        Some(_) => true,
        None => false,
    };
    case.image == [0; IMAGE] && case.requests.iter().all(is_listed)
}

/// A request's record in the words that `exoslog encode` reads, or a comment
/// where a log cannot have so long a record or it is for the writer.
pub fn words(request: &Request) -> String {
    let Some((kind, body)) = request.event() else {
        return format!("# {}", writing_words(&request.record));
    };
    if request.record.len() > LONGEST {
        return format!("# too long for a log: kind {kind}, body {}", body.len());
    }
    exoslog::words(Record::Whole { kind, body })
}

/// The tables to begin with, in words and as the bytes that are not zero.
fn start_state(image: &Image) -> String {
    if *image == [0; IMAGE] {
        return "# tables to begin with: all zero\n".to_string();
    }
    let tables = tables_in_words("tables to begin with", &tables_of(image));
    format!("{tables}#   image, but for zeros: {}\n", runs(image))
}

/// The runs of bytes that are not zero, each behind its offset.
fn runs(image: &Image) -> String {
    let mut runs = Vec::new();
    let mut at = 0;
    for run in image.split(|&byte| byte == 0) {
        if !run.is_empty() {
            runs.push(format!("{at}: {}", hex(run)));
        }
        at += run.len() + 1;
    }
    runs.join(", ")
}

fn answer(reply: &Reply) -> String {
    if reply.panicked() {
        return Fault::Panicked.to_string();
    }
    let moved = match reply.moved {
        0 => String::new(),
        moved => format!(", {moved} moved"),
    };
    format!("{} {} {}{moved}", reply.number, reply.a, reply.b)
}

fn tables_in_words(title: &str, tables: &Tables) -> String {
    let state = if is_good(tables) { "good" } else { "not good" };
    let segments: Vec<_> = tables.list.into_iter().zip(tables.classes).collect();
    let in_list = |row: &u8| {
        let number = tables.list.get(usize::from(*row));
        number.map_or("?".to_string(), u8::to_string)
    };
    let default = &tables.default;
    let default_name = name_words(&default.name, default.length);
    [
        format!("# {title} ({state}):"),
        rows("segments", tables.segments, &segments, segment_words),
        rows("chain", tables.chain_length, &tables.chain, in_list),
        format!("user boundary: {}", tables.user_boundary),
        format!("R, cold R: {}, {}", tables.r, tables.cold_r),
        rows(
            "channels",
            tables.channel_count,
            &tables.channels,
            channel_words,
        ),
        rows(
            "devices",
            tables.device_count,
            &tables.devices,
            device_words,
        ),
        format!("default: {default_name} unit {}\n", default.unit),
    ]
    .join("\n#   ")
}

/// The rows that are used by a count, which any tables may have too high.
fn rows<T>(name: &str, count: u8, rows: &[T], words: impl Fn(&T) -> String) -> String {
    let used = rows.iter().take(count.into());
    let said: Vec<_> = used.map(words).collect();
    format!("{name}: {count}: {}", said.join(", "))
}

fn segment_words(&(number, class): &(u8, u8)) -> String {
    let word = Class::of(class).map_or(format!("class {class}"), |class| class.to_string());
    format!("{number} {word}")
}

fn channel_words(channel: &Channel) -> String {
    let Channel {
        number,
        device,
        unit,
        n,
    } = channel;
    format!("{number} (device {device}, unit {unit}, n {n})")
}

fn device_words(device: &Device) -> String {
    let state = if device.enabled { "" } else { " (disabled)" };
    name_words(&device.name, device.length) + state
}

fn name_words(name: &[u8], length: u8) -> String {
    quoted(&name[..usize::from(length).min(name.len())])
}

#[cfg(test)]
mod tests {
    use super::*;
    use crate::machine::replies;
    use crate::program::{Replies, Stop};
    use exoslog::{encode, records};

    /// The report of a case whose last reply has another answer and RAM.
    fn told(image: Image, requests: Vec<Request>) -> String {
        let case = Case {
            image,
            ram_length: 32_768,
            seed: 1,
            requests,
        };
        let kernel = replies(&case);
        let mut program = kernel.clone();
        let last = program.last_mut().unwrap();
        last.number = 9;
        last.ram += 1;
        let program = Replies {
            given: program,
            stop: Stop::Ended,
        };
        report(&case, &Difference::first(&kernel, &program).unwrap())
    }

    fn check(text: &str, parts: &[&str]) {
        for part in parts {
            assert!(text.contains(part), "{part} is not in\n{text}");
        }
    }

    #[test]
    fn a_difference_in_words() {
        let start = Request::new(0, 256, &[0, 1, 8, 255]);
        let open = Request::new(0, 1, b"\x05\x00\x64\x00net7:");
        check(
            &told([0; IMAGE], vec![start, open]),
            &[
                "# a log in words: paste it into a file for exoslog encode, and replay that by exos-listing\n",
                "# tables to begin with: all zero\n",
                "\nstart 256 8 255 # 1, output of 0: 0 2 256\n",
                "\nopen 5 0 100 \"net7:\" # 2, output of 0: 0 1 7\n",
                "# the program: 9 1 7\n",
                "# differs: answer, RAM\n",
                "#   segments: 2: 8 page zero, 255 system\n",
                "#   channels: 0: \n",
                "#   channels: 1: 5 (device 1, unit 7, n 100)\n",
            ],
        );
    }

    #[test]
    fn bytes_moved_in_words() {
        let open = |channel: u8| Request::new(0, 1, &[channel, 0, 4, 0, b'N', b'E', b'T', b':']);
        let start = Request::new(0, 256, &[0, 1, 8, 255]);
        let requests = vec![start, open(5), open(6), Request::new(0, 3, &[5])];
        check(
            &told([0; IMAGE], requests),
            &[
                "\nopen 6 0 4 \"NET:\" # 3, output of 0: 0 1 0\n",
                "\nclose 5 # 4, output of 0: 0 0 0, 20 moved\n",
                "# the program: 9 0 0, 20 moved\n",
            ],
        );
    }

    #[test]
    fn a_difference_of_the_writer_in_words() {
        let start = Request::new(0, 256, &[0, 1, 8, 255]);
        let list = [0, 1, 0, 0, 2, 0, 4, 0xFE, 0xFF];
        let writing = Request::to_writer(7, [&[3, 0x00, 0x40][..], &list].concat());
        check(
            &told([0; IMAGE], vec![start, writing]),
            &[
                "# a log in words\n",
                "\n# write module 3 16384 bytes 0102 move fffe # 2, buffer of 7: 20 0 0\n",
                "# the program: 9 0 0\n",
            ],
        );
    }

    #[test]
    fn the_listing_is_advised_where_its_ram_fits() {
        let advises = |list: &[u8], more: &[Request]| {
            let start = Request::new(0, 256, &[&[0, 1], list].concat());
            told([0; IMAGE], [&[start], more].concat()).contains("exos-listing")
        };
        assert!(advises(&[8, 255], &[]));
        assert!(!advises(&[8, 9, 255], &[]));
        assert!(!advises(&[8, 255], &[Request::to_writer(1, vec![0; 3])]));
    }

    #[test]
    fn tables_to_begin_with() {
        let mut image = [0; IMAGE];
        image[..3].copy_from_slice(&[2, 8, 255]);
        image[33..35].copy_from_slice(&[9, 1]);
        check(
            &told(image, vec![Request::new(0, 22, &[])]),
            &[
                "# a log in words\n",
                "# tables to begin with (not good):\n",
                "#   segments: 2: 8 class 9, 255 free\n",
                "#   image, but for zeros: 0: 0208ff, 33: 0901\n",
                "\nboundary # 1, output of 0: 1 0 0\n",
            ],
        );
    }

    #[test]
    fn the_records_are_read_back_from_a_report() {
        let requests = vec![
            Request::new(0, 256, &[0, 1, 8, 255]),
            Request::new(3, 8, &[5, 0, 0, 1, 2]),
            Request::new(3, 3, &[]),
            Request::new(7, 999, &[1]),
            Request::new(0, 19, b"\x01\"\n"),
            Request::to_writer(9, vec![0, 0, 0, 0, 0x22, 0]),
        ];
        let mut with_long = requests.clone();
        with_long.push(Request::new(0, 8, &[0; LONGEST - 1]));
        let log = encode(told([7; IMAGE], with_long).as_bytes()).unwrap();
        let read: Vec<_> = records(&log).collect();
        let made: Vec<_> = requests
            .iter()
            .filter_map(Request::event)
            .map(|(kind, body)| Record::Whole { kind, body })
            .collect();
        assert_eq!(read, made);
    }
}
