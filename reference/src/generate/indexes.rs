//! The functions of the index, with the store's own index and with others.

use super::{Generator, Style};
use crate::calls::{Request, BLOCK};
use crate::index::{built, Index, ALL_UNUSED, LATER, LINES};

impl Generator {
    /// One of the four functions.
    pub(super) fn draw_indexed(&mut self) {
        match self.random.below(10) {
            0..=1 => self.call.request = Request::Index,
            2..=3 => self.draw_index_after(),
            4..=6 => {
                self.draw_read();
                if let Request::Update { block, .. } = self.call.request {
                    let index = self.some_index();
                    self.call.request = Request::ReadIndexed { index, block };
                }
            }
            _ => {
                self.draw_load();
                if let Request::Load {
                    signature,
                    platform,
                } = self.call.request
                {
                    let index = self.some_index();
                    self.call.request = Request::LoadIndexed {
                        index,
                        signature,
                        platform,
                    };
                }
            }
        }
    }

    /// The store's own index; that of a bad store is all unused.
    pub(super) fn own_index(&self) -> Index {
        self.known.as_ref().map_or(ALL_UNUSED, built)
    }

    /// The store's own index, or one that is not quite it, or not at all.
    fn some_index(&mut self) -> Index {
        let mut index = self.own_index();
        match self.random.below(20) {
            0..=10 => (),
            11..=14 => self.change_number(&mut index),
            15..=16 => index = self.other,
            17 => index = ALL_UNUSED,
            18 => {
                let from = self.random.below(LINES);
                self.copy_line(&mut index, from);
            }
            _ => self.fill_index(&mut index),
        }
        index
    }

    /// Changes one of the 128 numbers, often one of a line behind the store.
    fn change_number(&mut self, index: &mut Index) {
        let blocks = self.call.store.len() / BLOCK;
        let line = if blocks < LINES && self.random.chance(40) {
            self.random.between(blocks, LINES - 1)
        } else if blocks > 0 && self.random.chance(60) {
            self.random.below(blocks.min(LINES))
        } else {
            self.random.below(LINES)
        };
        let column = self.random.pick(&[0, 0, 1, 2, 3]);
        let number = &mut index[column * LINES + line];
        *number = match self.random.below(6) {
            0 => number.wrapping_add(1),
            1 => number.wrapping_sub(1),
            2 => *number ^ 1 << self.random.below(32),
            3 => self.random.pick(&[0, 1, 2, 3, 4, 0x101, 0xFFFF_FFFF]),
            4 if column == 0 => LATER + 1,
            4 => 0,
            _ => self.random.word(),
        };
    }

    /// Puts one line over another.
    fn copy_line(&mut self, index: &mut Index, from: usize) {
        let to = self.random.below(LINES);
        for column in 0..4 {
            index[column * LINES + to] = index[column * LINES + from];
        }
    }

    /// Random numbers in all lines, or in one where few bytes are wanted.
    fn fill_index(&mut self, index: &mut Index) {
        let lines = match self.style {
            Style::Compact => {
                let line = self.random.below(LINES);
                line..line + 1
            }
            Style::Wide => 0..LINES,
        };
        for line in lines {
            for column in 0..4 {
                index[column * LINES + line] = self.random.word() >> self.random.below(32);
            }
        }
    }

    /// The numbers of the last accepted write, or any numbers.
    fn draw_index_after(&mut self) {
        if self.random.chance(40) {
            if let Some(request) = self.carry.take() {
                self.call.request = request;
                return;
            }
        }
        let start = match self.random.below(8) {
            0..=3 => self.random.below(LINES) as u32,
            4 => self.random.pick(&[0, 15, 16, 31]),
            5 => self.random.pick(&[32, 33, 0x100, 0x8000_0000, 0xFFFF_FFFF]),
            6 => 0u32.wrapping_sub(self.random.between(1, 40) as u32),
            _ => self.random.word() >> self.random.below(32),
        };
        let size = match self.random.below(8) {
            0..=2 => self.random.between(1, 16) as u32,
            3 => 0,
            4 => self.random.pick(&[1, 15, 16, 17, 31, 32, 33]),
            // Start and size together are 2^32, or a little more.
            5 => 0u32.wrapping_sub(start),
            6 => 0u32
                .wrapping_sub(start)
                .wrapping_add(self.random.between(1, 40) as u32),
            _ => self.random.word() >> self.random.below(32),
        };
        self.call.request = Request::IndexAfter {
            old: self.some_index(),
            emptied: self.some_blocks(),
            start,
            revision: self.some_revision(),
            size,
        };
    }

    /// Emptied blocks: none, all, one, those of a stored update, or any.
    fn some_blocks(&mut self) -> u32 {
        match self.random.below(8) {
            0 => 0,
            1 => 0xFFFF_FFFF,
            2 => 1 << self.random.below(32),
            3..=5 => match &self.known {
                Some(store) if !store.held.is_empty() => {
                    let held = &store.held[self.random.below(store.held.len())];
                    (held.first..held.first + held.blocks)
                        .map(|block| 1 << block)
                        .sum()
                }
                _ => 1,
            },
            _ => self.random.word(),
        }
    }
}
