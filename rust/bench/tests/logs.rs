//! The measured logs ask what their names say.

use exos_bench::{maker, mixed, modules, run, Log};
use exos_kernel::{audit, Verdict};

#[test]
fn the_mixed_log_is_mostly_done() {
    let log = mixed(20_000, 8);
    let mut ram = vec![0; 8 * 16_384];
    let ran = run(&mut ram, &mut [0; 4_096], &log.bytes);
    let all: usize = ran.answers.iter().sum();
    assert_eq!(all, 20_000);
    assert!(ran.answers[0] > all * 7 / 10, "{:?}", ran.answers);
}

#[test]
fn a_close_before_a_long_record_is_done() {
    let mut log = Log::started(16_128, 8);
    log.open(1, 0, b"VIDEO:");
    log.open(2, 60_000 - 16, b"VIDEO:");
    log.close(1);
    let ran = run(&mut vec![0; 8 * 16_384], &mut [], &log.bytes);
    assert_eq!((ran.answers[0], ran.last.moved), (4, 60_000));
}

#[test]
fn a_module_is_loaded_after_a_mixed_log() {
    let mut log = mixed(2_000, 8);
    log.append(&modules(1, 1_024));
    let ran = run(&mut vec![0; 8 * 16_384], &mut [0; 4_096], &log.bytes);
    assert_eq!(ran.answers.iter().sum::<usize>(), log.records);
    assert_eq!((ran.last.number, ran.last.b), (0, 1_024));
}

#[test]
fn every_module_is_loaded_and_used_whole() {
    for bytes in [16, 17, 18, 19, 20, 4_090] {
        let log = modules(3, bytes);
        let ran = run(&mut vec![0; 8 * 16_384], &mut [], &log.bytes);
        assert_eq!(ran.answers[0], 5);
        assert_eq!(usize::from(ran.last.b), bytes);
    }
}

#[test]
fn a_makers_log_is_accepted() {
    let events = mixed(20_000, 4);
    let log = maker(&events);
    assert_eq!(log.records, 2 * events.records);
    assert_eq!(audit(&log.bytes[..]).unwrap(), Verdict::Ok);
}
