//! A log replayed, against its listing.

use crate::logs::{damage, random_log};
use crate::random::Random;
use exos_kernel::Machine;
use exoslog::{answer_to, records};

#[test]
fn the_answers_are_those_of_the_listing() {
    let mut random = Random::new(8, 0);
    let mut lines = 0;
    for _ in 0..2_000 {
        let mut log = random_log(&mut random);
        damage(&mut random, &mut log);
        let mut listing = Vec::new();
        exos_kernel::listing(&log[..], &mut listing).unwrap();
        let listing = String::from_utf8(listing).unwrap();
        let mut machine = Machine::default();
        let mut listed = listing.lines();
        for record in records(&log) {
            let line = listed.next().unwrap();
            match answer_to(&mut machine, record) {
                Some(reply) => {
                    let numbers: Vec<&str> = line.split(' ').skip(1).take(3).collect();
                    let answer = [reply.number.into(), reply.a.into(), reply.b];
                    assert_eq!(numbers, answer.map(|number| number.to_string()));
                }
                None => assert_eq!(line, "bad"),
            }
            lines += 1;
        }
        assert_eq!(listed.next(), None);
    }
    assert!(lines > 20_000, "{lines}");
}
