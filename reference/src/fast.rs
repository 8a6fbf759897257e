//! The functions of the C interface once more, plain and fast: the store is read once into
//! a directory of fixed size, and nothing is allocated.

mod directory;
mod index;
mod load;
mod update;

pub use index::{index, index_after, load_indexed, read_indexed};
pub use load::load;

use directory::{Directory, NOBODY};
use update::Update;

const BLOCK: usize = 2048;
const MOST_BLOCKS: usize = 32;
const HEADER: usize = 48;
const TABLE_HEAD: usize = 20;
const ENTRY: usize = 12;

/// AH and AL, as the image of AX.
type Refusal = u32;

const NOT_IMPLEMENTED: Refusal = 0x8600;
const BAD_STORE: Refusal = 0x9201;
const BAD_LIST: Refusal = 0x9202;
const SHORT_DESTINATION: Refusal = 0x9203;
const FULL_OF_SHARING: Refusal = 0x9304;
const FULL_OF_NEEDED: Refusal = 0x9305;
const CPU_NOT_PRESENT: Refusal = 0x9400;
const INVALID_HEADER: Refusal = 0x9500;
const INVALID_HEADER_CS: Refusal = 0x9600;
const SECURITY_FAILURE: Refusal = 0x9700;
const INVALID_REVISION: Refusal = 0x9800;
const UPDATE_NUM_INVALID: Refusal = 0x9900;
const NOT_EMPTY: Refusal = 0x9A00;

/// What a successful call answers.
enum Done {
    Presence {
        blocks: usize,
    },
    Written {
        start: usize,
        emptied: u32,
        emptied_blocks: u32,
    },
    Control {
        loading: bool,
    },
    Read {
        blocks: usize,
    },
}

/// The four update calls, as in the C interface.
#[allow(clippy::too_many_arguments)]
#[inline(never)]
pub fn call(
    function: u32,
    sub_function: u32,
    task: u32,
    block: u32,
    loading: bool,
    store: &mut [u8],
    signatures: &[u32],
    platforms: &[u8],
    candidate: &[u8],
    read_back: u32,
    destination: &mut [u8],
    answer: &mut [u32; 16],
) -> u32 {
    let done = match (function, sub_function) {
        (0xD042, 0) => presence(store),
        (0xD042, 1) => write(store, signatures, platforms, candidate, read_back),
        (0xD042, 2) => control(loading, task),
        (0xD042, 3) => read(store, block, destination),
        _ => Err(NOT_IMPLEMENTED),
    };
    *answer = [0; 16];
    answer[3] = u32::from(loading);
    match done {
        Err(refusal) => {
            if function == 0xD042 && sub_function == 2 {
                answer[5] = 0xFF;
            }
            return lay_refusal(refusal, 4, answer);
        }
        Ok(Done::Presence { blocks }) => {
            for (word, &letter) in answer[5..13].iter_mut().zip(b"INTELPEP") {
                *word = u32::from(letter);
            }
            answer[13] = 1;
            answer[14] = blocks as u32;
        }
        Ok(Done::Written {
            start,
            emptied,
            emptied_blocks,
        }) => {
            answer[4] = 1;
            answer[5] = start as u32;
            answer[6] = emptied;
            answer[7] = emptied_blocks;
        }
        Ok(Done::Control { loading }) => {
            answer[3] = u32::from(loading);
            answer[4] = 2;
            answer[5] = u32::from(loading);
        }
        Ok(Done::Read { blocks }) => {
            answer[4] = 3;
            answer[5] = blocks as u32;
        }
    }
    0
}

/// Lays a refusal and its case out in words of zeros.
fn lay_refusal(refusal: Refusal, case: u32, answer: &mut [u32; 16]) -> u32 {
    answer[0] = refusal >> 8;
    answer[1] = refusal & 0xFF;
    answer[2] = 1;
    answer[4] = case;
    refusal
}

fn presence(store: &[u8]) -> Result<Done, Refusal> {
    let directory = Directory::scan(store).ok_or(BAD_STORE)?;
    Ok(Done::Presence {
        blocks: directory.blocks,
    })
}

fn control(loading: bool, task: u32) -> Result<Done, Refusal> {
    match task {
        1 => Ok(Done::Control { loading: true }),
        2 => Ok(Done::Control { loading }),
        _ => Err(NOT_IMPLEMENTED),
    }
}

fn read(store: &[u8], block: u32, destination: &mut [u8]) -> Result<Done, Refusal> {
    let directory = Directory::scan(store).ok_or(BAD_STORE)?;
    let block = block as usize;
    if block >= directory.blocks {
        return Err(UPDATE_NUM_INVALID);
    }
    let blocks = match directory.owners[block] {
        NOBODY => 1,
        owner => {
            let place = &directory.places[usize::from(owner)];
            if usize::from(place.start) != block {
                return Err(NOT_EMPTY);
            }
            directory.update(place).blocks()
        }
    };
    copy_blocks(store, block, blocks, destination)?;
    Ok(Done::Read { blocks })
}

fn copy_blocks(
    store: &[u8],
    block: usize,
    blocks: usize,
    destination: &mut [u8],
) -> Result<(), Refusal> {
    let length = blocks * BLOCK;
    if destination.len() < length {
        return Err(SHORT_DESTINATION);
    }
    destination[..length].copy_from_slice(&store[block * BLOCK..][..length]);
    Ok(())
}

fn write(
    store: &mut [u8],
    signatures: &[u32],
    platforms: &[u8],
    candidate: &[u8],
    read_back: u32,
) -> Result<Done, Refusal> {
    let directory = Directory::scan(store).ok_or(BAD_STORE)?;
    if signatures.len() != platforms.len()
        || signatures.is_empty()
        || signatures.len() > 8
        || platforms.iter().any(|&platform| platform > 7)
    {
        return Err(BAD_LIST);
    }
    let candidate = Update::judge(candidate)?;

    // The listed processors, parted into those the candidate covers and the others.
    let mut others = [(0, 0); 8];
    let mut other_count = 0;
    for (&signature, &platform) in signatures.iter().zip(platforms) {
        if !candidate.covers(signature, 1 << platform) {
            others[other_count] = (signature, 1 << platform);
            other_count += 1;
        }
    }
    if other_count == signatures.len() {
        return Err(CPU_NOT_PRESENT);
    }
    let others = &others[..other_count];

    let revision = candidate.revision();
    let sharing = directory.which(|update| update.shares(&candidate));
    if sharing & directory.which(|update| update.revision() >= revision) != 0 {
        return Err(INVALID_REVISION);
    }
    let kept = directory.which(|update| {
        others
            .iter()
            .any(|&(signature, platform)| update.covers(signature, platform))
    });
    if sharing & kept != 0 {
        return Err(FULL_OF_SHARING);
    }
    let wanted = candidate.blocks();
    let (start, emptied) = directory
        .best_run(wanted, sharing, kept)
        .ok_or(FULL_OF_NEEDED)?;
    if read_back != revision {
        return Err(SECURITY_FAILURE);
    }

    let owners = directory.owners;
    let mut emptied_blocks = 0;
    for (number, (block, owner)) in store.chunks_exact_mut(BLOCK).zip(owners).enumerate() {
        if owner != NOBODY && emptied >> owner & 1 == 1 {
            block.fill(0xFF);
            emptied_blocks |= 1 << number;
        }
    }
    let (update, rest) =
        store[start * BLOCK..(start + wanted) * BLOCK].split_at_mut(candidate.bytes.len());
    update.copy_from_slice(candidate.bytes);
    rest.fill(0xFF);
    Ok(Done::Written {
        start,
        emptied: emptied.count_ones(),
        emptied_blocks,
    })
}
