//! Processors that stored updates cover, and processor lists.

use super::Generator;
use crate::random::Random;
use crate::update::Processor;
use std::collections::BTreeSet;

impl Generator {
    /// A processor that a stored update covers, or one of the pool.
    pub(super) fn some_processor(&mut self) -> Processor {
        if self.random.chance(70) {
            if let Some(processor) = self.held_processor() {
                return processor;
            }
        }
        self.pool_processor()
    }

    pub(super) fn pool_processor(&mut self) -> Processor {
        (self.random.pick(&self.pool), self.random.below(8) as u32)
    }

    fn held_processor(&mut self) -> Option<Processor> {
        let store = self.known.as_ref()?;
        if store.held.is_empty() {
            return None;
        }
        let update = &store.held[self.random.below(store.held.len())].update;
        one_of(&mut self.random, &update.covered)
    }

    /// Processors for a candidate to cover: those of stored updates, whole or in part,
    /// ones that nobody covers, or any.
    pub(super) fn wanted_processors(&mut self) -> Vec<Processor> {
        let mut wanted = Vec::new();
        let style = self.random.below(100);
        if style < 50 {
            for _ in 0..self.random.pick(&[1, 1, 1, 1, 2, 2, 3, 5]) {
                let Some(store) = &self.known else { break };
                if store.held.is_empty() {
                    break;
                }
                let update = &store.held[self.random.below(store.held.len())].update;
                if self.random.chance(65) {
                    wanted.extend(update.covered.iter().copied().take(60));
                } else {
                    wanted.extend(one_of(&mut self.random, &update.covered));
                }
            }
        }
        if style >= 50 || wanted.is_empty() || self.random.chance(20) {
            for _ in 0..self.random.pick(&[1, 1, 2, 3]) {
                let processor = self.pool_processor();
                let fresh = self.known.as_ref().is_none_or(|store| {
                    let mut held = store.held.iter();
                    held.all(|held| !held.update.covers(processor))
                });
                if fresh || style >= 85 {
                    wanted.push(processor);
                }
            }
        }
        if wanted.is_empty() {
            wanted.push((self.random.word(), self.random.below(8) as u32));
        }
        wanted
    }

    pub(super) fn new_list(&mut self, wanted: &[Processor]) {
        let mut list = Vec::new();
        let count = self.random.pick(&[1, 1, 2, 2, 3, 4, 5, 6, 8, 8]);
        // Some lists keep away from what the candidate's sharing updates also cover.
        let only_wanted = self.random.chance(25);
        for index in 0..count {
            let from_wanted = index == 0 || only_wanted || self.random.chance(20);
            list.push(if from_wanted && self.random.chance(97) {
                self.random.pick(wanted)
            } else {
                self.some_processor()
            });
        }
        self.random.shuffle(&mut list);
        self.call.signatures = list.iter().map(|processor| processor.0).collect();
        self.call.platforms = list.iter().map(|processor| processor.1 as u8).collect();
        if self.random.chance(3) {
            self.damage_list();
        }
    }

    fn damage_list(&mut self) {
        let call = &mut self.call;
        match self.random.below(6) {
            0 => {
                call.signatures.clear();
                call.platforms.clear();
            }
            1 => {
                call.signatures.resize(9, 0x650);
                call.platforms.resize(9, 1);
            }
            2 => call.signatures.truncate(self.random.below(3)),
            3 => call.platforms.push(1),
            _ => {
                let at = self.random.below(call.platforms.len());
                call.platforms[at] = self.random.pick(&[8, 9, 16, 128, 255]);
            }
        }
    }
}

/// One of a set's processors.
fn one_of(random: &mut Random, covered: &BTreeSet<Processor>) -> Option<Processor> {
    if covered.is_empty() {
        return None;
    }
    covered.iter().nth(random.below(covered.len())).copied()
}
