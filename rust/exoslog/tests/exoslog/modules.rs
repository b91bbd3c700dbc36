//! Modules to words and back, over random streams, and against the kernel.

use crate::logs::{damage, random_items};
use crate::random::Random;
use crate::round_trips::check;
use exos_kernel::Machine;
use exoslog::{answer_to, decode, encode, records, ANSWERS};

const STREAMS: usize = 100_000;

fn load_module(stream: &[u8]) -> Vec<u8> {
    let length = stream.len() as u16 + 6;
    let mut log = length.to_le_bytes().to_vec();
    log.extend([30, 0, 253, 3, 0, 1]);
    log.extend(stream);
    log
}

/// A module, damaged more often than not.
fn random_stream(random: &mut Random) -> Vec<u8> {
    let line = format!("load module 253 3 256 {}end", random_items(random));
    let mut stream = encode(line.as_bytes()).unwrap().split_off(8);
    damage(random, &mut stream);
    stream
}

#[test]
fn every_stream_of_at_most_two_bytes() {
    check(&load_module(&[]));
    for word in 0..=u16::MAX {
        let [first, second] = word.to_be_bytes();
        check(&load_module(&[first, second]));
        check(&load_module(&[second]));
    }
}

#[test]
fn random_streams() {
    let mut random = Random::new(9, 0);
    let mut met = [
        ("end\n", 0),
        ("end rest", 0),
        ("illegal", 0),
        ("# bad padding", 0),
        ("# input runs out", 0),
    ];
    for _ in 0..STREAMS {
        let log = load_module(&random_stream(&mut random));
        check(&log);
        let text = decode(&log);
        for (words, count) in &mut met {
            *count += usize::from(text.contains(*words));
        }
    }
    assert!(met.iter().all(|met| met.1 > STREAMS / 100), "{met:?}");
}

#[test]
fn items_in_words_are_the_words_of_their_stream() {
    let mut random = Random::new(10, 0);
    for _ in 0..STREAMS {
        let text = format!("load module 253 3 256 {}end\n", random_items(&mut random));
        assert_eq!(decode(&encode(text.as_bytes()).unwrap()), text);
    }
}

/// A whole module ends where the kernel has used it up; MODULE is answered to
/// what the words say is none.
#[test]
fn the_words_tell_what_the_kernel_answers() {
    let mut random = Random::new(11, 0);
    let mut machine = Machine::default();
    let start = encode(b"start 11074 252 253 254 255\nallocate user").unwrap();
    for record in records(&start) {
        answer_to(&mut machine, record);
    }
    let mut met = [0; ANSWERS.len()];
    for _ in 0..STREAMS {
        let stream = random_stream(&mut random);
        let log = load_module(&stream);
        let reply = answer_to(&mut machine, records(&log).next().unwrap()).unwrap();
        match reply.number {
            0 => {
                let used = &stream[..usize::from(reply.b)];
                assert!(decode(&load_module(used)).ends_with(" end\n"));
            }
            19 => {
                let text = decode(&log);
                assert!(text.contains("illegal") || text.contains(" # "), "{text}");
            }
            number => assert_eq!(number, 20),
        }
        met[usize::from(reply.number)] += 1;
    }
    for number in [0, 19, 20] {
        assert!(met[number] > STREAMS / 100, "{met:?}");
    }
}
