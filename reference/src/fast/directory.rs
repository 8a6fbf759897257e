//! The directory of a store: its updates by start, and whose each block is.

use super::update::{unused, Update};
use super::{BLOCK, HEADER, MOST_BLOCKS, TABLE_HEAD};

/// A block that belongs to no update.
pub const NOBODY: u8 = 0xFF;

/// Where an update stands in its store, and its sizes.
#[derive(Clone, Copy)]
pub struct Place {
    pub start: u16,
    total: u16,
    data: u16,
}

/// The updates of a store by start, and for each block the number of its update.
pub struct Directory<'a> {
    store: &'a [u8],
    pub blocks: usize,
    count: usize,
    pub places: [Place; MOST_BLOCKS],
    pub owners: [u8; MOST_BLOCKS],
}

impl<'a> Directory<'a> {
    /// Reads a store; a bad one gives nothing.
    pub fn scan(store: &'a [u8]) -> Option<Directory<'a>> {
        let blocks = store.len() / BLOCK;
        if !store.len().is_multiple_of(BLOCK) || blocks == 0 || blocks > MOST_BLOCKS {
            return None;
        }
        let nowhere = Place {
            start: 0,
            total: 0,
            data: 0,
        };
        let mut directory = Directory {
            store,
            blocks,
            count: 0,
            places: [nowhere; MOST_BLOCKS],
            owners: [NOBODY; MOST_BLOCKS],
        };
        let mut block = 0;
        while block < blocks {
            let rest = &store[block * BLOCK..];
            if unused(&rest[..BLOCK]) {
                block += 1;
                continue;
            }
            let update = Update::judge(rest).ok()?;
            let taken = update.blocks();
            if !unused(&rest[update.bytes.len()..taken * BLOCK]) {
                return None;
            }
            if directory.held().any(|held| held.shares(&update)) {
                return None;
            }
            let index = directory.count;
            directory.places[index] = Place {
                start: block as u16,
                total: update.bytes.len() as u16,
                data: update.data as u16,
            };
            directory.owners[block..block + taken].fill(index as u8);
            directory.count += 1;
            block += taken;
        }
        Some(directory)
    }

    pub fn update(&self, place: &Place) -> Update<'a> {
        let (total, data) = (usize::from(place.total), usize::from(place.data));
        let bytes = &self.store[usize::from(place.start) * BLOCK..][..total];
        let table = &bytes[HEADER + data..];
        Update {
            bytes,
            data,
            entries: table.get(TABLE_HEAD..).unwrap_or(&[]),
        }
    }

    pub fn held(&self) -> impl Iterator<Item = Update<'a>> + '_ {
        self.places[..self.count]
            .iter()
            .map(|place| self.update(place))
    }

    /// The updates for which something holds, a bit each.
    pub fn which(&self, holds: impl Fn(&Update) -> bool) -> u32 {
        let mut found = 0;
        for (index, update) in self.held().enumerate() {
            found |= u32::from(holds(&update)) << index;
        }
        found
    }

    /// The best run of wanted blocks: its start, and all updates to be emptied.
    pub fn best_run(&self, wanted: usize, sharing: u32, kept: u32) -> Option<(usize, u32)> {
        let mut best: Option<(usize, u32)> = None;
        for (start, run) in self.owners[..self.blocks].windows(wanted).enumerate() {
            let mut emptied = sharing;
            for &owner in run {
                if owner != NOBODY {
                    emptied |= 1 << owner;
                }
            }
            if emptied & kept == 0
                && best.is_none_or(|(_, least)| emptied.count_ones() < least.count_ones())
            {
                best = Some((start, emptied));
            }
        }
        best
    }
}
