//! The index beside a store: for each of 32 blocks whether it is unused, the first block
//! of an update or a later one, with the update's first block, revision and size in blocks.

use crate::store::Store;

/// How many blocks an index has a line for.
pub const LINES: usize = 32;

/// An index as it is lent: 32 kinds, 32 starts, 32 revisions, 32 sizes.
pub type Index = [u32; 4 * LINES];

/// The index of a bad store, and of one whose blocks are all unused.
pub const ALL_UNUSED: Index = [0; 4 * LINES];

/// The kinds of a block.
pub const UNUSED: u32 = 0;
pub const FIRST: u32 = 1;
pub const LATER: u32 = 2;

/// What an index says of one block.
#[derive(Clone, Copy, Debug, PartialEq, Eq)]
pub struct Line {
    pub kind: u32,
    pub start: u32,
    pub revision: u32,
    pub size: u32,
}

/// The line of an unused block, and of every block behind the store.
const NOTHING: Line = Line {
    kind: UNUSED,
    start: 0,
    revision: 0,
    size: 0,
};

/// The line of a block.
pub fn line(index: &Index, block: usize) -> Line {
    Line {
        kind: index[block],
        start: index[LINES + block],
        revision: index[2 * LINES + block],
        size: index[3 * LINES + block],
    }
}

/// The index that has these lines.
fn of_lines(lines: impl Fn(usize) -> Line) -> Index {
    let mut index = ALL_UNUSED;
    for block in 0..LINES {
        let line = lines(block);
        index[block] = line.kind;
        index[LINES + block] = line.start;
        index[2 * LINES + block] = line.revision;
        index[3 * LINES + block] = line.size;
    }
    index
}

/// The index of a valid store.
pub fn built(store: &Store) -> Index {
    of_lines(|block| match store.owner(block) {
        None => NOTHING,
        Some(owner) => {
            let held = &store.held[owner];
            Line {
                kind: if block == held.first { FIRST } else { LATER },
                start: held.first as u32,
                revision: held.update.revision,
                size: held.blocks as u32,
            }
        }
    })
}

/// The index of a store's bytes; that of a bad store is all unused.
pub fn own(store: &[u8]) -> Index {
    Store::parse(store).map_or(ALL_UNUSED, |store| built(&store))
}

/// The index after an accepted write, from the one before it, the blocks emptied, and the
/// candidate's start, revision and size in blocks.
pub fn carried(old: &Index, emptied: u32, start: u32, revision: u32, size: u32) -> Index {
    of_lines(|block| {
        let number = block as u64;
        let first = u64::from(start);
        if first <= number && number < first + u64::from(size) {
            Line {
                kind: if number == first { FIRST } else { LATER },
                start,
                revision,
                size,
            }
        } else if emptied >> block & 1 == 1 {
            NOTHING
        } else {
            line(old, block)
        }
    })
}
