//! Updates, good ones and ones that break a rule.

use super::{Generator, Style};
use crate::calls::BLOCK;
use crate::make::{self, Recipe};
use crate::update::{Pair, Processor};

impl Generator {
    /// Pairs that cover just the processors, in any order, some of them with more bits
    /// or with entries that cover nobody.
    pub(super) fn pairs_for(&mut self, processors: &[Processor]) -> Vec<Pair> {
        let mut pairs: Vec<Pair> = Vec::new();
        let apart = self.random.chance(15);
        for &(signature, platform) in processors {
            let bit = 1 << platform;
            let same = pairs.iter_mut().find(|pair| pair.0 == signature);
            match same {
                Some(pair) if !apart => pair.1 |= bit,
                _ => pairs.push((signature, bit)),
            }
        }
        pairs.truncate(60);
        self.random.shuffle(&mut pairs);
        if self.random.chance(10) {
            // The header covers nobody.
            let (signature, _) = self.pool_processor();
            pairs.insert(0, (signature, 0));
        }
        let idle = match self.random.below(50) {
            0..=3 => self.random.between(1, 3),
            4 if self.style == Style::Wide => 65 - pairs.len(),
            5 if self.style == Style::Wide => self.random.between(0, 65 - pairs.len()),
            _ => 0,
        };
        for _ in 0..idle {
            let (signature, _) = self.pool_processor();
            pairs.push((signature, 0));
        }
        if self.random.chance(20) {
            for pair in &mut pairs {
                pair.1 |= self.random.word() & 0xFFFF_FF00;
            }
        }
        pairs
    }

    pub(super) fn recipe(&mut self, pairs: &[Pair], width: usize) -> Recipe {
        let total = self.some_total(pairs.len() - 1, width);
        let mut recipe = Recipe::new(self.some_revision(), pairs, total);
        if total == BLOCK && pairs.len() == 1 && self.random.chance(50) {
            recipe.data_field = 0;
            recipe.total_field = self.random.pick(&[0, 0, 2048, 1, 0xFFFF_FFFF]);
        }
        match self.random.below(10) {
            0 => recipe.data = vec![0xFF],
            1 => recipe.data = vec![self.random.byte()],
            2 => recipe.data = (0..4).map(|_| self.random.byte()).collect(),
            3..=5 if self.style == Style::Wide => {
                recipe.data = vec![0; recipe.data_bytes];
                self.random.fill(&mut recipe.data);
            }
            6 if self.style == Style::Wide => {
                // Another update at each block boundary inside the data.
                recipe.data = vec![0xFF; BLOCK - 48];
                recipe.data.extend(make::p(7).iter().take(48));
            }
            _ => (),
        }
        if self.random.chance(10) {
            self.random.fill(&mut recipe.reserved);
            self.random.fill(&mut recipe.table_reserved);
            recipe.date = self.random.word();
        }
        recipe
    }

    /// A total size of so many blocks: with a table one in three is any multiple of 4.
    fn some_total(&mut self, entries: usize, width: usize) -> usize {
        let most = width * BLOCK;
        if entries == 0 || self.random.below(3) > 0 {
            return if self.random.chance(30) {
                most - 1024
            } else {
                most
            };
        }
        let least = (most - BLOCK + 4).max(48 + 4 + 20 + 12 * entries);
        match self.random.below(8) {
            0 => least,
            1 => most - 4,
            _ => 4 * self.random.between(least / 4, most / 4),
        }
    }

    pub(super) fn some_revision(&mut self) -> u32 {
        match self.random.below(40) {
            0 => self.random.word(),
            1 => self.random.pick(&[0xFFFF_FFFF, 0x8000_0000, 0x7FFF_FFFF]),
            _ => self.random.below(20) as u32,
        }
    }

    /// Breaks one rule, or nearly does; the sums stay right unless they are the rule.
    pub(super) fn damage_recipe(&mut self, recipe: &mut Recipe) {
        let entries = recipe.pairs.len() as u32 - 1;
        let off = match self.random.below(3) {
            0 => 1,
            1 => 0x8000_0000,
            _ => self.random.word(),
        };
        let small = self.random.pick(&[1, 2, 4, 12, 20, 32, 1024, 2048]);
        let small = if self.random.chance(50) {
            small
        } else {
            0u32.wrapping_sub(small)
        };
        match self.random.below(16) {
            0 => recipe.version = self.random.pick(&[0, 2, 0x101, 0xFFFF_FFFF]),
            1 => recipe.loader = self.random.pick(&[0, 2, 0x101, 0xFFFF_FFFF]),
            2 => recipe.data_field = recipe.data_field.wrapping_add(small),
            3 => recipe.total_field = recipe.total_field.wrapping_add(small),
            4 => {
                recipe.data_field = recipe.data_field.wrapping_add(small);
                recipe.total_field = recipe.total_field.wrapping_add(small);
            }
            5 => {
                recipe.total_field = 0;
                recipe.data_field = 0u32.wrapping_sub(48 + 20 + 12 * entries);
            }
            6 => recipe.count = recipe.count.wrapping_add(small),
            7 => recipe.count |= 1 << self.random.between(7, 31),
            8 => recipe.wrong.table = off,
            9 if entries > 0 => {
                recipe.wrong.entry = Some((self.random.below(entries as usize), off));
            }
            10 => {
                // One entry more than a table may have.
                let mut pairs = recipe.pairs.clone();
                pairs.resize(66, (0x650, 0));
                *recipe = Recipe::new(recipe.revision, &pairs, BLOCK);
            }
            11 => *recipe = Recipe::new(recipe.revision, &recipe.pairs, 33_792),
            12 => *recipe = Recipe::new(recipe.revision, &with_entry(recipe), 32_772),
            13 => {
                // Off the kilobyte, and no table.
                let most = recipe.length().next_multiple_of(BLOCK);
                let total = most - 4 * self.random.between(1, 255);
                *recipe = Recipe::new(recipe.revision, &recipe.pairs[..1], total);
            }
            14 => {
                // A table behind a D that is no multiple of 4.
                let most = recipe.length().next_multiple_of(BLOCK);
                let total = most - self.random.between(1, 3);
                *recipe = Recipe::new(recipe.revision, &with_entry(recipe), total);
            }
            _ => recipe.wrong.total = off,
        }
    }
}

/// The pairs, and if there is no entry, one that covers nobody.
fn with_entry(recipe: &Recipe) -> Vec<Pair> {
    let mut pairs = recipe.pairs.clone();
    if pairs.len() == 1 {
        pairs.push((0x650, 0));
    }
    pairs
}
