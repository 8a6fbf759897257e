//! The write: the order of its checks, and the choice among all legal outcomes.

use crate::calls::{
    Call, BLOCK, CPU_NOT_PRESENT, INVALID_HEADER, INVALID_HEADER_CS, INVALID_REVISION,
    READ_FAILURE, SECURITY_FAILURE, STORAGE_FULL,
};
use crate::store::Store;
use crate::update::{Fault, Processor, Update};

/// Up to this many stored updates, every set of them is tried as the emptied one.
pub const ALL_SETS: usize = 10;

/// A start block and a set of the stored updates, which the outcome empties.
#[derive(Clone, Copy, Debug, PartialEq, Eq)]
pub struct Outcome {
    pub start: usize,
    /// Bit i stands for the stored update number i.
    pub emptied: u32,
}

impl Outcome {
    pub fn empties(&self, index: usize) -> bool {
        self.emptied >> index & 1 == 1
    }

    pub fn emptied_count(&self) -> u32 {
        self.emptied.count_ones()
    }

    /// Bit b for each block b of an emptied update, in the run or not.
    pub fn emptied_blocks(&self, store: &Store) -> u32 {
        let mut blocks = 0;
        for block in 0..store.blocks {
            if store.owner(block).is_some_and(|index| self.empties(index)) {
                blocks |= 1 << block;
            }
        }
        blocks
    }
}

/// An accepted write.
pub struct Written {
    pub start: usize,
    pub emptied_count: u32,
    pub emptied_blocks: u32,
    /// The store's bytes after it.
    pub bytes: Vec<u8>,
}

/// All that decides which outcomes are legal.
pub struct Choice {
    /// N, and the blocks that the candidate wants.
    pub blocks: usize,
    pub wanted: usize,
    /// For each block the stored update that it belongs to.
    pub owners: Vec<Option<usize>>,
    /// For each stored update whether it covers a processor that the candidate covers.
    pub sharing: Vec<bool>,
    /// For each stored update whether it covers a listed processor that the candidate
    /// does not cover.
    pub needed: Vec<bool>,
}

impl Choice {
    pub fn new(store: &Store, listed: &[Processor], candidate: &Update) -> Choice {
        let needed = |update: &Update| {
            listed
                .iter()
                .any(|&processor| update.covers(processor) && !candidate.covers(processor))
        };
        Choice {
            blocks: store.blocks,
            wanted: candidate.blocks(),
            owners: (0..store.blocks).map(|block| store.owner(block)).collect(),
            sharing: store
                .held
                .iter()
                .map(|held| held.update.shares(candidate))
                .collect(),
            needed: store.held.iter().map(|held| needed(&held.update)).collect(),
        }
    }

    /// Whether the outcome is legal, in the words of document 01.
    pub fn legal(&self, outcome: Outcome) -> bool {
        let updates = self.sharing.len();
        (0..updates).all(|index| !outcome.empties(index) || !self.needed[index])
            && (0..updates).all(|index| outcome.empties(index) || !self.sharing[index])
            && outcome.start + self.wanted <= self.blocks
            && self.owners[outcome.start..outcome.start + self.wanted]
                .iter()
                .all(|owner| owner.is_none_or(|index| outcome.empties(index)))
    }

    /// Every legal outcome: all starts with all sets of updates.
    pub fn all_legal(&self) -> Vec<Outcome> {
        let mut found = Vec::new();
        for emptied in 0..1u32 << self.sharing.len() {
            for start in 0..self.blocks {
                let outcome = Outcome { start, emptied };
                if self.legal(outcome) {
                    found.push(outcome);
                }
            }
        }
        found
    }

    /// For each start the legal outcome that empties the fewest. Any legal outcome
    /// with this start empties at least the sharing updates and the owners of the run.
    pub fn least_legal(&self) -> Vec<Outcome> {
        let mut found = Vec::new();
        for start in 0..self.blocks {
            let mut emptied = 0;
            for (index, sharing) in self.sharing.iter().enumerate() {
                let run = self.owners.iter().skip(start).take(self.wanted);
                if *sharing || run.into_iter().any(|owner| *owner == Some(index)) {
                    emptied |= 1 << index;
                }
            }
            let outcome = Outcome { start, emptied };
            if self.legal(outcome) {
                found.push(outcome);
            }
        }
        found
    }

    /// The legal outcome that empties the fewest updates, and of those the one with
    /// the lowest start.
    pub fn best(&self) -> Option<Outcome> {
        let legal = if self.sharing.len() <= ALL_SETS {
            self.all_legal()
        } else {
            self.least_legal()
        };
        legal
            .into_iter()
            .min_by_key(|outcome| (outcome.emptied_count(), outcome.start))
    }
}

/// The processors of a good list.
pub fn listed(signatures: &[u32], platforms: &[u8]) -> Option<Vec<Processor>> {
    if signatures.len() != platforms.len() || !(1..=8).contains(&signatures.len()) {
        return None;
    }
    if platforms.iter().any(|&platform| platform > 7) {
        return None;
    }
    let platforms = platforms.iter().map(|&platform| u32::from(platform));
    Some(signatures.iter().copied().zip(platforms).collect())
}

/// The accepted write, or AH and AL.
pub fn write(call: &Call, read_back: u32) -> Result<Written, (u32, u32)> {
    // 1
    let store = Store::parse(&call.store).ok_or((READ_FAILURE, 1))?;
    let listed = listed(&call.signatures, &call.platforms).ok_or((READ_FAILURE, 2))?;
    // 2, 3, 4
    let candidate = Update::parse(&call.candidate).map_err(|fault| match fault {
        Fault::Header => (INVALID_HEADER, 0),
        Fault::Sums => (INVALID_HEADER_CS, 0),
    })?;
    // 5
    if !listed.iter().any(|&processor| candidate.covers(processor)) {
        return Err((CPU_NOT_PRESENT, 0));
    }
    // 6
    let choice = Choice::new(&store, &listed, &candidate);
    for (held, sharing) in store.held.iter().zip(&choice.sharing) {
        if *sharing && held.update.revision >= candidate.revision {
            return Err((INVALID_REVISION, 0));
        }
    }
    // 7, 8
    let Some(outcome) = choice.best() else {
        let mut both = choice.sharing.iter().zip(&choice.needed);
        let kept = both.any(|(sharing, needed)| *sharing && *needed);
        return Err((STORAGE_FULL, if kept { 4 } else { 5 }));
    };
    // 9
    if read_back != candidate.revision {
        return Err((SECURITY_FAILURE, 0));
    }
    Ok(Written {
        start: outcome.start,
        emptied_count: outcome.emptied_count(),
        emptied_blocks: outcome.emptied_blocks(&store),
        bytes: stored(&call.store, &store, outcome, &candidate, &call.candidate),
    })
}

/// The bytes of an outcome.
fn stored(
    old: &[u8],
    store: &Store,
    outcome: Outcome,
    candidate: &Update,
    bytes: &[u8],
) -> Vec<u8> {
    let mut new = old.to_vec();
    for (index, held) in store.held.iter().enumerate() {
        if outcome.empties(index) {
            new[held.first * BLOCK..(held.first + held.blocks) * BLOCK].fill(0xFF);
        }
    }
    let total = candidate.sizes.total as usize;
    let run = &mut new[outcome.start * BLOCK..(outcome.start + candidate.blocks()) * BLOCK];
    run.fill(0xFF);
    run[..total].copy_from_slice(&bytes[..total]);
    new
}
