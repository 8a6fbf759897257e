//! Stores, good ones and bad ones.

use super::{Generator, Style};
use crate::calls::{BLOCK, FUNCTION};
use crate::make;
use crate::store::Store;
use crate::update::{Pair, Processor};
use std::collections::BTreeSet;

impl Generator {
    /// Puts updates into an unused store that do not share a processor.
    pub(super) fn fill_store(&mut self, blocks: usize) {
        let crowd = self.random.pick(&[0, 30, 60, 85, 95, 100]);
        let most = self.random.pick(&[1, 1, 1, 2, 2, 3, 4, 16]);
        let mut taken = BTreeSet::new();
        let mut block = 0;
        while block < blocks {
            if !self.random.chance(crowd) {
                block += 1;
                continue;
            }
            let width = self.random.between(1, most.min(blocks - block));
            let pairs = self.free_pairs(&mut taken);
            let update = self.recipe(&pairs, width).build();
            make::place(&mut self.call.store, block, &update);
            block += width;
        }
    }

    /// Pairs that cover none of the taken processors; those that they cover are taken.
    fn free_pairs(&mut self, taken: &mut BTreeSet<Processor>) -> Vec<Pair> {
        let entries = match self.random.below(40) {
            0..=19 => 0,
            20..=34 => self.random.between(1, 3),
            35..=37 => self.random.between(4, 8),
            38 if self.style == Style::Wide => self.random.between(9, 64),
            39 if self.style == Style::Wide => 64,
            _ => 1,
        };
        let mut pairs = Vec::new();
        let mut own = BTreeSet::new();
        for _ in 0..=entries {
            let signature = match self.random.below(10) {
                0..=6 => self.random.pick(&self.pool),
                _ => 0x700 + self.random.below(64) as u32,
            };
            let mut flags = match self.random.below(10) {
                0 => 0,
                1 => 0xFF,
                2 => u32::from(self.random.byte()),
                3..=4 => 1 << self.random.below(8) | 1 << self.random.below(8),
                _ => 1 << self.random.below(8),
            };
            for platform in 0..8 {
                if taken.contains(&(signature, platform)) {
                    flags &= !(1 << platform);
                } else if flags >> platform & 1 == 1 {
                    own.insert((signature, platform));
                }
            }
            if self.random.chance(10) {
                flags |= self.random.word() & 0xFFFF_FF00;
            }
            pairs.push((signature, flags));
        }
        taken.append(&mut own);
        pairs
    }

    /// Makes the store bad, in most cases.
    pub(super) fn spoil_store(&mut self) {
        let length = self.call.store.len();
        let blocks = length / BLOCK;
        match self.random.below(10) {
            0 => self.call.store.clear(),
            1 => self
                .call
                .store
                .truncate(length - self.random.between(1, BLOCK)),
            2 => self
                .call
                .store
                .resize(length + self.random.between(1, BLOCK - 1), 0xFF),
            3 => self.call.store.resize(33 * BLOCK, 0xFF),
            4 => {
                // One and the same update at two places.
                let width = self.random.between(1, blocks.div_ceil(2).min(16));
                let (signature, platform) = self.pool_processor();
                let update = self.recipe(&[(signature, 1 << platform)], width).build();
                self.put_over(0, &update);
                if 2 * width <= blocks {
                    self.put_over(blocks - width, &update);
                }
            }
            5 | 6 => {
                // A damaged update, alone or among others.
                if self.random.chance(60) {
                    self.call.store.fill(0xFF);
                }
                let width = self.random.between(1, blocks.min(16));
                let (signature, platform) = self.pool_processor();
                let pairs = [(signature, 1 << platform), (signature, 0)];
                let mut recipe = self.recipe(&pairs, width);
                self.damage_recipe(&mut recipe);
                let block = self.random.below(blocks);
                self.put_over(block.min(blocks - width), &recipe.build());
            }
            7 | 8 => {
                // A rest that begins late.
                if let Some(at) = self.some_rest() {
                    self.call.store[at] = self.random.pick(&[0, 0x7F, 0xFE]);
                }
            }
            _ => {
                // An update that does not fit any more.
                let update = self.recipe(&[(0x650, 2)], 2).build();
                self.put_over(blocks - 1, &update);
            }
        }
    }

    /// Puts bytes into whole blocks, over what is there, cut off at the store's end.
    fn put_over(&mut self, block: usize, bytes: &[u8]) {
        let rest = &mut self.call.store[block * BLOCK..];
        let whole = bytes.len().next_multiple_of(BLOCK).min(rest.len());
        rest[..whole].fill(0xFF);
        let count = bytes.len().min(whole);
        rest[..count].copy_from_slice(&bytes[..count]);
    }

    /// The first byte behind a stored update that does not fill its last block.
    fn some_rest(&mut self) -> Option<usize> {
        let store = Store::parse(&self.call.store)?;
        let mut rests = Vec::new();
        for held in &store.held {
            let total = held.update.sizes.total as usize;
            if !total.is_multiple_of(BLOCK) {
                rests.push(held.first * BLOCK + total);
            }
        }
        (!rests.is_empty()).then(|| self.random.pick(&rests))
    }

    /// Any call on a store in which one byte is changed, for this call only.
    pub(super) fn damage_store(&mut self) {
        match self.random.below(4) {
            0 => self.draw_write(),
            1 => self.draw_read(),
            2 => self.draw_indexed(),
            _ => self.call.request = self.loose(FUNCTION, 0),
        }
        if self.call.store.is_empty() {
            return;
        }
        self.whole = Some(self.call.store.clone());
        let blocks = self.call.store.len() / BLOCK;
        let start = self.random.below(blocks.max(1)) * BLOCK;
        let within = match self.random.below(4) {
            0 => self.random.below(48),
            1 => BLOCK - 1,
            _ => self.random.below(BLOCK),
        };
        let mut at = (start + within).min(self.call.store.len() - 1);
        if self.random.chance(20) {
            at = self.some_rest().unwrap_or(at);
        }
        self.call.store[at] ^= 1 << self.random.below(8);
    }
}
