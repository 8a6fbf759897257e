//! The functions of the index, plain and fast: the index is filled from the directory, and
//! what goes through an index goes by its lines once it is known to be the store's own.

use super::directory::Directory;
use super::load::{lay_choice, Choice};
use super::{
    copy_blocks, lay_refusal, Refusal, BAD_LIST, BAD_STORE, MOST_BLOCKS, NOT_EMPTY,
    UPDATE_NUM_INVALID,
};

/// 32 kinds, 32 starts, 32 revisions, 32 sizes.
type Index = [u32; 4 * MOST_BLOCKS];

/// Where the numbers of block 0 stand; its kind stands first of all.
const STARTS: usize = MOST_BLOCKS;
const REVISIONS: usize = 2 * MOST_BLOCKS;
const SIZES: usize = 3 * MOST_BLOCKS;

const UNUSED: u32 = 0;
const FIRST: u32 = 1;
const LATER: u32 = 2;

/// The same AH and AL as for a bad store.
const OTHER_INDEX: Refusal = BAD_STORE;

/// Sets the lines of an update's blocks, from its first block to an end.
fn set_lines(index: &mut Index, first: usize, end: usize, revision: u32, size: u32) {
    index[first..end].fill(LATER);
    index[first] = FIRST;
    index[STARTS + first..STARTS + end].fill(first as u32);
    index[REVISIONS + first..REVISIONS + end].fill(revision);
    index[SIZES + first..SIZES + end].fill(size);
}

impl<'a> Directory<'a> {
    /// Fills the lines of the stored updates, in an index of zeros.
    fn fill(&self, index: &mut Index) {
        for (place, update) in self.places.iter().zip(self.held()) {
            let first = usize::from(place.start);
            let size = update.blocks();
            set_lines(index, first, first + size, update.revision(), size as u32);
        }
    }

    /// Reads a store, if the index is its own.
    fn scan_by(index: &Index, store: &'a [u8]) -> Result<Directory<'a>, Refusal> {
        let directory = Directory::scan(store).ok_or(BAD_STORE)?;
        let mut own = [0; 4 * MOST_BLOCKS];
        directory.fill(&mut own);
        if own != *index {
            return Err(OTHER_INDEX);
        }
        Ok(directory)
    }
}

/// The index of a store, as in the C interface.
#[inline(never)]
pub fn index(store: &[u8], index: &mut Index, answer: &mut [u32; 16]) -> u32 {
    let directory = Directory::scan(store);
    *index = [0; 4 * MOST_BLOCKS];
    *answer = [0; 16];
    match directory {
        None => lay_refusal(BAD_STORE, 1, answer),
        Some(directory) => {
            directory.fill(index);
            0
        }
    }
}

/// The index after a write, as in the C interface.
#[inline(never)]
pub fn index_after(
    old: &Index,
    emptied: u32,
    start: u32,
    revision: u32,
    size: u32,
    new: &mut Index,
    answer: &mut [u32; 16],
) -> u32 {
    *new = *old;
    let mut left = emptied;
    while left != 0 {
        let block = left.trailing_zeros() as usize;
        for at in [block, STARTS + block, REVISIONS + block, SIZES + block] {
            new[at] = 0;
        }
        left &= left - 1;
    }
    let first = start as usize;
    let end = first.saturating_add(size as usize).min(MOST_BLOCKS);
    if first < end {
        set_lines(new, first, end, revision, size);
    }
    *answer = [0; 16];
    0
}

/// The read through an index, as in the C interface.
#[inline(never)]
pub fn read_indexed(
    index: &Index,
    block: u32,
    store: &[u8],
    destination: &mut [u8],
    answer: &mut [u32; 16],
) -> u32 {
    let copied = read_by(index, block as usize, store, destination);
    *answer = [0; 16];
    match copied {
        Err(refusal) => lay_refusal(refusal, 4, answer),
        Ok(blocks) => {
            answer[4] = 3;
            answer[5] = blocks as u32;
            0
        }
    }
}

/// How many blocks are copied.
fn read_by(
    index: &Index,
    block: usize,
    store: &[u8],
    destination: &mut [u8],
) -> Result<usize, Refusal> {
    let directory = Directory::scan_by(index, store)?;
    if block >= directory.blocks {
        return Err(UPDATE_NUM_INVALID);
    }
    let blocks = match index[block] {
        UNUSED => 1,
        FIRST => index[SIZES + block] as usize,
        _ => return Err(NOT_EMPTY),
    };
    copy_blocks(store, block, blocks, destination)?;
    Ok(blocks)
}

/// The load choice through an index, as in the C interface.
#[inline(never)]
pub fn load_indexed(
    loading: bool,
    index: &Index,
    store: &[u8],
    signature: u32,
    platform: u32,
    answer: &mut [u32; 16],
) -> u32 {
    let chosen = choose_by(loading, index, store, signature, platform);
    lay_choice(loading, chosen, answer)
}

fn choose_by(
    loading: bool,
    index: &Index,
    store: &[u8],
    signature: u32,
    platform: u32,
) -> Result<Option<Choice>, Refusal> {
    let directory = Directory::scan_by(index, store)?;
    if platform > 7 {
        return Err(BAD_LIST);
    }
    if !loading {
        return Ok(None);
    }
    for (block, &owner) in directory.owners.iter().enumerate() {
        if index[block] == FIRST {
            let update = directory.update(&directory.places[usize::from(owner)]);
            if update.covers(signature, 1 << platform) {
                return Ok(Some(Choice {
                    start: block,
                    revision: index[REVISIONS + block],
                    data: update.data,
                }));
            }
        }
    }
    Ok(None)
}
