//! Changes against a sentence: wherever that can be had, against no other.

use crate::Change;
use exos_kernel::{class, NAME};

/// Each leaves tables that are not good.
pub const BROKEN: &[Change] = &[
    ("no segment", |t| t.segments = 0),
    ("one segment", |t| t.segments = 1),
    ("a segment fewer", |t| t.segments = 5),
    ("33 segments", |t| t.segments = 33),
    ("255 segments", |t| t.segments = 255),
    ("list not rising", |t| t.list[1] = 250),
    ("list falling", |t| t.list[1] = 249),
    ("list from 7", |t| t.list[0] = 7),
    ("last not 255", |t| {
        t.list[..6].copy_from_slice(&[249, 250, 251, 252, 253, 254]);
    }),
    ("first unused list row", |t| t.list[6] = 1),
    ("last unused list row", |t| t.list[31] = 1),
    ("page zero with a class", |t| t.classes[0] = class::FREE),
    ("class 0", |t| t.classes[1] = 0),
    ("class 6", |t| t.classes[1] = 6),
    ("class 255", |t| t.classes[1] = 255),
    ("255 free", |t| t.classes[5] = class::FREE),
    ("255 the user's", |t| t.classes[5] = class::USER),
    ("first unused class row", |t| t.classes[6] = 1),
    ("last unused class row", |t| t.classes[31] = 1),
    ("two shared", |t| t.classes[5] = class::SHARED),
    ("shared outside the chain", |t| {
        t.classes[4] = class::SYSTEM;
        t.classes[1] = class::SHARED;
    }),
    ("system outside the chain", |t| t.classes[1] = class::SYSTEM),
    ("chain longer", |t| t.chain_length = 3),
    ("chain shorter", |t| t.chain_length = 1),
    ("chain empty", |t| t.chain_length = 0),
    ("chain of 33", |t| t.chain_length = 33),
    ("chain not from 255", |t| t.chain[0] = 4),
    ("chain turned round", |t| t.chain[..2].reverse()),
    ("chain turned round and unshared", |t| {
        t.chain[..2].reverse();
        t.classes[4] = class::SYSTEM;
        t.user_boundary = 0;
    }),
    ("chain with 255 twice", |t| t.chain[1] = 5),
    ("chain of 255 alone, twice", |t| {
        t.chain[1] = 5;
        t.classes[4] = class::FREE;
        t.user_boundary = 0;
    }),
    ("chain with a free one", |t| t.chain[1] = 1),
    ("chain outside the list", |t| t.chain[1] = 6),
    ("chain far outside", |t| t.chain[1] = 255),
    ("first unused chain row", |t| t.chain[2] = 1),
    ("last unused chain row", |t| t.chain[31] = 1),
    ("line too long for the chain", |t| t.channels[1].n = 20_000),
    ("line one byte too long for the chain", |t| {
        t.channels[1].n = 1_000 + 15_753;
        t.user_boundary = 0;
    }),
    ("line too short for the chain", |t| {
        t.channels[1].n = 0;
        t.user_boundary = 0;
    }),
    ("shared not the chain's last", |t| {
        t.classes[5] = class::SHARED;
        t.classes[4] = class::SYSTEM;
        t.user_boundary = 0;
    }),
    ("user boundary one too high", |t| t.user_boundary = 15_753),
    ("user boundary far too high", |t| t.user_boundary = 65_535),
    ("user boundary unshared", |t| t.classes[4] = class::SYSTEM),
    ("user boundary 1 unshared", |t| {
        t.classes[4] = class::SYSTEM;
        t.user_boundary = 1;
    }),
    ("R 255", |t| t.r = 255),
    ("R 0", |t| t.r = 0),
    ("R above the cold R", |t| t.r = 1_001),
    ("R and cold R 16,129", |t| {
        t.r = 16_129;
        t.cold_r = 16_129;
        t.channels[1].n = 20_000;
    }),
    ("cold R below R", |t| t.cold_r = 899),
    ("cold R 16,129", |t| t.cold_r = 16_129),
    ("33 channels", |t| t.channel_count = 33),
    ("255 channels", |t| t.channel_count = 255),
    ("a channel fewer", |t| t.channel_count = 1),
    ("channel 255", |t| t.channels[0].number = 255),
    ("channel twice", |t| t.channels[0].number = 2),
    ("channel without device", |t| t.channels[1].device = 5),
    ("channel far from a device", |t| t.channels[1].device = 255),
    ("unused channel number", |t| t.channels[31].number = 1),
    ("unused channel device", |t| t.channels[2].device = 1),
    ("unused channel unit", |t| t.channels[2].unit = 1),
    ("unused channel n", |t| t.channels[2].n = 256),
    ("17 devices", |t| t.device_count = 17),
    ("255 devices", |t| t.device_count = 255),
    ("2 devices", |t| t.device_count = 2),
    ("a device fewer", |t| t.device_count = 4),
    ("a device more", |t| t.device_count = 6),
    ("no VIDEO", |t| t.devices[0].name[0] = b'W'),
    ("no NET", |t| {
        t.devices[1].name[0] = b'M';
        t.devices[1].enabled = true;
    }),
    ("no KEYBOARD", |t| {
        t.devices[2].name[7] = 0;
        t.devices[2].length = 7;
    }),
    ("device with a small letter", |t| {
        t.devices[4].name[0] = b'd'
    }),
    ("device with a digit", |t| t.devices[4].name[2] = b'0'),
    ("device with @", |t| t.devices[4].name[0] = b'@'),
    ("device with [", |t| t.devices[4].name[3] = b'['),
    ("byte after a device", |t| t.devices[4].name[4] = 1),
    ("last byte after a device", |t| t.devices[4].name[27] = b'A'),
    ("device longer than its name", |t| t.devices[4].length = 5),
    ("device of 29 letters", |t| {
        t.devices[4].name = [b'Z'; NAME];
        t.devices[4].length = 29;
    }),
    ("device of 255 letters", |t| {
        t.devices[4].name = [b'Z'; NAME];
        t.devices[4].length = 255;
    }),
    ("device of no letter", |t| {
        t.devices[4].name = [0; NAME];
        t.devices[4].length = 0;
    }),
    ("VIDEO disabled", |t| t.devices[0].enabled = false),
    ("last device disabled", |t| t.devices[4].enabled = false),
    ("older device enabled", |t| t.devices[1].enabled = true),
    ("unused device enabled", |t| t.devices[15].enabled = true),
    ("unused device length", |t| t.devices[5].length = 1),
    ("unused device name", |t| t.devices[5].name[27] = 1),
    ("default with a small letter", |t| t.default.name[0] = b'n'),
    ("default shorter than its name", |t| t.default.length = 2),
    ("default longer than its name", |t| t.default.length = 4),
    ("default of 29 letters", |t| {
        t.default.name = [b'Z'; NAME];
        t.default.length = 29;
    }),
    ("last byte after the default", |t| t.default.name[27] = 1),
    ("default empty with a unit", |t| {
        t.default.name = [0; NAME];
        t.default.length = 0;
    }),
];
