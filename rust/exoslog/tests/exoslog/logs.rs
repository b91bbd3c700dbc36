//! Random logs.

use crate::random::Random;
use exoslog::{decode, encode, hex};

/// A log of calls that mostly succeed.
pub fn random_log(random: &mut Random) -> Vec<u8> {
    let lists = ["252 253 254 255", "9 200 255", "100 101 102 255", "8 255"];
    let mut text = format!(
        "start {} {}\n",
        256 + random.below(15_873),
        random.pick(&lists)
    );
    for step in 0..random.below(40) {
        let n = match random.below(4) {
            0 => random.below(40),
            1 => random.below(20_000),
            _ => random.below(3_000),
        };
        let channel = random.below(12);
        let segment = random.pick(&[253, 254, 255, 200, 101, 102]);
        text.push_str(&match random.below(17) {
            0..=5 => format!(
                "open {channel} 0 {n} \"{}\"\n",
                random.pick(&["video:", "NET-7:f", "DISK:"])
            ),
            6..=7 => format!("close {channel}\n"),
            8..=9 => format!("write {channel} 0 {:02x}\n", step),
            10 => format!("link {} \"DISK\"\n", random.below(600)),
            11 => format!("allocate {}\n", random.pick(&["user", "device"])),
            12 => "allocate user\n".to_string(),
            13 => format!("set user boundary {n}\n"),
            14 => format!("free {} {segment}\n", random.pick(&["user", "device"])),
            15 => format!("load module {segment} 0 {n} {}end\n", random_items(random)),
            _ => format!(
                "reset bits {}\n",
                random.pick(&["4", "5", "6", "4 6", "5 6"])
            ),
        });
    }
    encode(text.as_bytes()).unwrap()
}

/// Such a log with calls that give bytes among the others.
pub fn random_reads(random: &mut Random) -> Vec<u8> {
    let mut text = String::new();
    for line in decode(&random_log(random)).lines() {
        text.push_str(&format!("{line}\n"));
        let length = random.pick(&[0, 1, 20, 4_089, 4_090]);
        text.push_str(&match random.below(6) {
            0 => "status\n".to_string(),
            1 => format!("read {} 0 {length}\n", random.below(12)),
            2 => format!("user load 252 {} {length}\n", random.below(13_000)),
            _ => String::new(),
        });
    }
    encode(text.as_bytes()).unwrap()
}

/// Items of a module in words, a blank behind each. Runs of bytes stand apart.
pub fn random_items(random: &mut Random) -> String {
    let mut text = String::new();
    for _ in 0..random.below(6) {
        if random.one_in(2) {
            let length = 1 + random.below(4);
            text.push_str(&format!("bytes {} ", hex(&random.bytes(length))));
        }
        let most = random.pick(&[64, 64, 65_536]);
        let value = random.below(most);
        text.push_str(&match random.below(4) {
            0 => format!("word {value:04x} "),
            1 => format!("page {} ", value % 4),
            2 => "restore ".to_string(),
            _ => format!("move {value:04x} "),
        });
    }
    text
}

/// Now and then changes a byte, cuts the log or puts bytes behind it.
pub fn damage(random: &mut Random, log: &mut Vec<u8>) {
    if random.one_in(4) && !log.is_empty() {
        let at = random.below(log.len());
        log[at] = random.byte();
    }
    if random.one_in(4) {
        log.truncate(random.below(log.len() + 1));
    }
    if random.one_in(4) {
        let more = random.below(5);
        log.extend(random.bytes(more));
    }
}
