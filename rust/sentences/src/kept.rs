//! Changes up to the edge of a sentence: the tables stay good.

use crate::Change;
use exos_kernel::{class, NAME};

/// Each leaves good tables.
pub const KEPT: &[Change] = &[
    ("as they are", |_| {}),
    ("list from 8", |t| t.list[0] = 8),
    ("user boundary highest", |t| t.user_boundary = 15_752),
    ("user boundary 0", |t| t.user_boundary = 0),
    ("unshared", |t| {
        t.classes[4] = class::SYSTEM;
        t.user_boundary = 0;
    }),
    ("R least", |t| t.r = 256),
    ("R at the cold R", |t| t.r = 1_000),
    ("R most", |t| {
        t.r = 16_128;
        t.cold_r = 16_128;
        t.channels[1].n = 20_000;
    }),
    ("cold R at R", |t| t.cold_r = 900),
    ("cold R most", |t| t.cold_r = 16_128),
    ("a third channel, all zero", |t| t.channel_count = 3),
    ("channel 254", |t| t.channels[0].number = 254),
    ("channel of the last device", |t| t.channels[1].device = 4),
    ("channel of a disabled device", |t| t.channels[1].device = 1),
    ("channel unit 255", |t| t.channels[1].unit = 255),
    ("longest line of the chain", |t| {
        t.channels[1].n = 1_000 + 15_752;
        t.user_boundary = 0;
    }),
    ("another default", |t| t.default.name[0] = b'J'),
    ("default unit 255", |t| t.default.unit = 255),
    ("default empty", |t| t.default = Default::default()),
    ("default of 28 letters", |t| {
        t.default.name = [b'Z'; NAME];
        t.default.length = 28;
    }),
    ("device of 1 letter", |t| {
        t.devices[4].name = [0; NAME];
        t.devices[4].name[0] = b'A';
        t.devices[4].length = 1;
    }),
    ("device of 28 letters", |t| {
        t.devices[4].name = [b'Z'; NAME];
        t.devices[4].length = 28;
    }),
];
