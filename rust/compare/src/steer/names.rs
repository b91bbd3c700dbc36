//! Strings for open, and device names for default and link.

use super::Steer;
use exos_kernel::Device;
use exos_random::Random;

impl Steer<'_> {
    /// A string for open: mostly an enabled device with or without a unit.
    pub(super) fn name(&mut self) -> Vec<u8> {
        let device = self.random.pick(self.view().devices());
        let mut name = match self.random.below(40) {
            0..=2 => Vec::new(),
            3 => letters(self.random, 2),
            4 => {
                let length = self.random.pick(&[27, 28, 29]);
                letters(self.random, length)
            }
            _ => named(&device).to_vec(),
        };
        if self.random.one_in(3) {
            name.make_ascii_lowercase();
        }
        let unit = self.unit(name.len());
        name.extend(unit);
        if !self.random.one_in(25) {
            name.push(b':');
        }
        if self.random.one_in(8) {
            let length = self.random.pick(&[0, 1, 5, 27, 28, 29]);
            name.extend((0..length).map(|_| self.file_byte()));
        }
        if self.random.one_in(40) {
            let at = self.random.below(name.len() + 1);
            let strange = self.random.pick(b" :-@[`{/09\x20\x21\x7E\x7F\x80\xFF\x00A");
            name.insert(at, strange);
        }
        name
    }

    fn unit(&mut self, before: usize) -> Vec<u8> {
        let value = match self.random.below(16) {
            0 => self.random.pick(&[254, 255, 256, 257]),
            1 => self.random.below(1_200),
            _ => self.random.below(256),
        };
        match self.random.below(60) {
            0..=7 => format!("{value}").into_bytes(),
            8..=15 => format!("-{value}").into_bytes(),
            16..=17 => format!("-{value:04}").into_bytes(),
            18 => b"-".to_vec(),
            // leading zeros up to a string of 254, 255 or 256 bytes with its colon
            19 => {
                let length = self.random.pick(&[253, 254, 255]) - before.min(30);
                format!("{value:0length$}").into_bytes()
            }
            _ => Vec::new(),
        }
    }

    fn file_byte(&mut self) -> u8 {
        match self.random.below(200) {
            0 => self.random.byte(),
            1 => b':',
            2..=20 => self.random.pick(b"\x21\x7E"),
            _ => self.random.pick(b"abcXYZ019.-/"),
        }
    }

    /// A name for link and default: old, new, or just against the rules.
    pub(super) fn device_name(&mut self) -> Vec<u8> {
        let device = self.random.pick(self.view().devices());
        let mut name = match self.random.below(12) {
            0..=3 => named(&device).to_vec(),
            4 => {
                let length = self.random.pick(&[0, 27, 28, 29]);
                letters(self.random, length)
            }
            _ => {
                let length = 1 + self.random.below(3);
                letters(self.random, length)
            }
        };
        if self.random.one_in(12) && !name.is_empty() {
            let at = self.random.below(name.len());
            name[at] = self.random.pick(b"a9:@[`{z\x00\xC1");
        }
        name
    }
}

fn named(device: &Device) -> &[u8] {
    &device.name[..usize::from(device.length)]
}

fn letters(random: &mut Random, length: usize) -> Vec<u8> {
    (0..length).map(|_| random.pick(b"ABYZ")).collect()
}
