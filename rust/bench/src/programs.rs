//! Programs that are run over logs, and what they cost.

use crate::clock;
use crate::measure::medians;
use std::fs::File;
use std::path::{Path, PathBuf};
use std::process::{Command, Stdio};

/// A folder for logs, as long as it is held.
pub struct Room(PathBuf);

impl Room {
    /// A new folder.
    pub fn new() -> Room {
        let room = std::env::temp_dir().join(format!("exos-bench-{}", std::process::id()));
        std::fs::create_dir(&room).expect("a folder for the logs");
        Room(room)
    }

    /// A log in it.
    pub fn log(&self, name: &str, bytes: &[u8]) -> PathBuf {
        let log = self.0.join(name);
        std::fs::write(&log, bytes).expect("a log that can be written");
        log
    }
}

impl Drop for Room {
    fn drop(&mut self) {
        std::fs::remove_dir_all(&self.0).expect("a folder that can be removed");
    }
}

/// Runs a program over a log; what it prints goes to `text`.
fn run(program: &str, log: &Path, text: Stdio) {
    let log = File::open(log).expect("a log that can be read");
    let status = Command::new(program)
        .stdin(log)
        .stdout(text)
        .status()
        .expect("a program that can be run");
    assert!(status.success(), "{program} takes the log");
}

/// What a program prints for a log.
pub fn text(program: &str, log: &Path) -> Vec<u8> {
    let to = log.with_extension("txt");
    run(program, log, File::create(&to).expect("a text").into());
    std::fs::read(to).expect("a text that can be read")
}

/// A program, a log, and the least log that it takes.
pub type Work<'a> = (&'a str, &'a Path, &'a Path);

/// The processor's time of each program over its log, less that over the least one, in nanoseconds. All take turns.
pub fn times(rounds: usize, works: &[Work]) -> Vec<f64> {
    let runs = works.iter().flat_map(|&(program, log, least)| {
        [log, least]
            .map(|log| -> Box<dyn Fn() + '_> { Box::new(move || run(program, log, Stdio::null())) })
    });
    let runs: Vec<_> = runs.collect();
    let medians = medians(rounds, clock::others, &runs);
    medians.chunks(2).map(|pair| pair[0] - pair[1]).collect()
}
