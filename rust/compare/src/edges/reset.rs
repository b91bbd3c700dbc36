//! The edges of start and reset.

use super::{Edge, Meeting};
use exos_kernel::SEGMENT;

impl<Met: FnMut(Edge)> Meeting<'_, Met> {
    pub(super) fn start(&mut self, r: u16, list: &[u8], ram_length: usize) {
        let fits = ram_length == SEGMENT * list.len();
        let rising = list.windows(2).all(|pair| pair[0] < pair[1]) && list.last() == Some(&255);
        self.done(r == 256, Edge::StartLeastR);
        self.done(r == 16_128, Edge::StartMostR);
        self.done(true, Edge::StartOf(list.len() as u8));
        self.done(list.first() == Some(&8), Edge::StartEight);
        let room = (256..=16_128).contains(&r);
        let long = (2..=32).contains(&list.len());
        let first = list.first().is_some_and(|&first| first > 7);
        let right = rising && first && long;
        self.answered(16, r == 255 && right && fits, Edge::StartBelowR);
        self.answered(16, r == 16_129 && right && fits, Edge::StartAboveR);
        self.answered(16, list.len() == 1 && rising && room, Edge::StartOne);
        self.answered(16, list.len() == 33 && rising && room, Edge::StartMore);
        let seven = rising && long && list.first() == Some(&7);
        self.answered(16, seven && room && fits, Edge::StartSeven);
        self.answered(16, right && room && !fits, Edge::StartWrongRam);
    }

    pub(super) fn reset(&mut self, flags: u8) {
        let view = self.view;
        let (open, shared) = (!view.channels().is_empty(), view.is_shared());
        let alone = view.0.chain_length == 1;
        let lowered = view.0.r < view.0.cold_r;
        self.done(flags == 0x00, Edge::Reset00);
        self.done(flags == 0x10 && open, Edge::Reset10);
        self.done(flags == 0x20 && open && lowered, Edge::Reset20);
        self.done(flags == 0x30 && open, Edge::Reset30);
        self.done(flags == 0x40 && shared, Edge::Reset40);
        self.done(flags == 0x50 && shared && !alone, Edge::Reset50);
        self.done(flags == 0x60 && shared, Edge::Reset60);
        self.done(flags == 0x70 && shared, Edge::Reset70);
        self.done(flags == 0x10 && open && shared && alone, Edge::ResetKeeps);
        self.done(flags == 0x10 && shared && !alone, Edge::ResetToUser);
        self.answered(15, flags == 0x01, Edge::ResetBit0);
        self.answered(15, flags == 0x02, Edge::ResetBit1);
        self.answered(15, flags == 0x04, Edge::ResetBit2);
        self.answered(15, flags == 0x08, Edge::ResetBit3);
        self.answered(15, flags == 0x80, Edge::ResetBit7);
    }
}
