//! Writes, and the candidates that they bring.

use super::Generator;
use crate::calls::{Request, BLOCK, CANDIDATE_ROOM, FUNCTION, WRITE};
use crate::update::Processor;
use std::collections::BTreeSet;

impl Generator {
    pub(super) fn draw_write(&mut self) {
        if self.random.chance(85) {
            self.new_candidate();
        }
        let mut read_back = match self.call.candidate.get(4..8) {
            Some(bytes) => u32::from_le_bytes([bytes[0], bytes[1], bytes[2], bytes[3]]),
            None => 0,
        };
        match self.random.below(24) {
            0 => read_back = read_back.wrapping_add(1),
            1 => read_back = read_back.wrapping_sub(1),
            2 => read_back ^= 1 << self.random.below(32),
            _ => (),
        }
        let mut request = self.loose(FUNCTION, WRITE);
        if let Request::Update {
            read_back: back, ..
        } = &mut request
        {
            *back = read_back;
        }
        self.call.request = request;
    }

    pub(super) fn new_candidate(&mut self) {
        let wanted = self.wanted_processors();
        let pairs = self.pairs_for(&wanted);
        let blocks = self.call.store.len() / BLOCK;
        let width = match self.random.below(20) {
            0..=7 => 1,
            8..=11 => 2,
            12..=13 => 3,
            14..=16 => self.random.between(1, blocks.clamp(1, 16)),
            17 => blocks.div_ceil(2).clamp(1, 16),
            18 => blocks.clamp(1, 16),
            _ => self.random.between(1, 16),
        };
        let mut recipe = self.recipe(&pairs, width);
        let coverage: BTreeSet<Processor> = wanted.iter().copied().collect();
        recipe.revision = self.revision_against(&coverage);
        let damaged = self.random.chance(14);
        if damaged {
            self.damage_recipe(&mut recipe);
        }
        self.call.candidate = recipe.build();
        if damaged && self.random.chance(30) {
            self.damage_candidate();
        } else if self.random.chance(20) {
            let room = CANDIDATE_ROOM - self.call.candidate.len();
            let longer = self.call.candidate.len() + self.random.below(room.min(3000));
            self.call.candidate.resize(longer, 0x33);
        }
        if self.random.chance(80) {
            self.new_list(&wanted);
        }
    }

    /// A revision for a candidate, mostly greater than those it shares with.
    fn revision_against(&mut self, coverage: &BTreeSet<Processor>) -> u32 {
        let mut greatest = None;
        if let Some(store) = &self.known {
            for held in &store.held {
                if !held.update.covered.is_disjoint(coverage) {
                    greatest = greatest.max(Some(held.update.revision));
                }
            }
        }
        let Some(greatest) = greatest else {
            return self.some_revision();
        };
        match self.random.below(20) {
            0 => greatest,
            1 => greatest.saturating_sub(1),
            2 => self.some_revision(),
            3 => 0xFFFF_FFFF,
            _ => greatest.saturating_add(self.random.between(1, 3) as u32),
        }
    }

    fn damage_candidate(&mut self) {
        let length = self.call.candidate.len();
        match self.random.below(6) {
            0 => self.call.candidate.truncate(length - 1),
            1 => self.call.candidate.truncate(self.random.below(49)),
            2 => self.call.candidate.truncate(self.random.below(length)),
            3 => self.call.candidate[self.random.below(48)] ^= 1 << self.random.below(8),
            _ => self.call.candidate[self.random.below(length)] ^= 1 << self.random.below(8),
        }
    }
}
