//! A store: its blocks and the updates held in them.

use crate::calls::BLOCK;
use crate::update::Update;

/// A stored update and where it lies.
#[derive(Clone, Debug)]
pub struct Held {
    pub first: usize,
    pub blocks: usize,
    pub update: Update,
}

/// A valid store.
#[derive(Clone, Debug)]
pub struct Store {
    pub blocks: usize,
    pub held: Vec<Held>,
}

fn all_unused(bytes: &[u8]) -> bool {
    bytes.iter().all(|&byte| byte == 0xFF)
}

impl Held {
    /// Whether the block is one of this update's.
    pub fn has(&self, block: usize) -> bool {
        self.first <= block && block < self.first + self.blocks
    }
}

impl Store {
    /// Reads a store from block 0; a bad store gives nothing.
    pub fn parse(bytes: &[u8]) -> Option<Store> {
        let blocks = bytes.len() / BLOCK;
        if !bytes.len().is_multiple_of(BLOCK) || !(1..=32).contains(&blocks) {
            return None;
        }
        let mut held = Vec::new();
        let mut block = 0;
        while block < blocks {
            let rest = &bytes[block * BLOCK..];
            if all_unused(&rest[..BLOCK]) {
                block += 1;
                continue;
            }
            let update = Update::parse(rest).ok()?;
            let taken = update.blocks();
            if !all_unused(&rest[update.sizes.total as usize..taken * BLOCK]) {
                return None;
            }
            held.push(Held {
                first: block,
                blocks: taken,
                update,
            });
            block += taken;
        }
        for (index, one) in held.iter().enumerate() {
            if held[..index]
                .iter()
                .any(|two| one.update.shares(&two.update))
            {
                return None;
            }
        }
        Some(Store { blocks, held })
    }

    /// The number, in `held`, of the update that the block belongs to.
    pub fn owner(&self, block: usize) -> Option<usize> {
        self.held.iter().position(|held| held.has(block))
    }
}
