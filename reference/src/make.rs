//! Makes updates and stores, good ones and ones with a single fault.

use crate::calls::BLOCK;
use crate::update::{sum, Pair};

/// Sums that shall come out other than the rules ask.
#[derive(Clone, Copy, Debug, Default)]
pub struct Wrong {
    /// What all dwords sum to.
    pub total: u32,
    /// What the table's dwords sum to.
    pub table: u32,
    /// An entry, and how much its checksum is off.
    pub entry: Option<(usize, u32)>,
}

/// What an update is made of. Its sums are made right, but for `wrong`.
#[derive(Clone, Debug)]
pub struct Recipe {
    pub version: u32,
    pub revision: u32,
    pub date: u32,
    pub loader: u32,
    /// The header's pair, then the entries' pairs.
    pub pairs: Vec<Pair>,
    /// The fields at 28 and 32.
    pub data_field: u32,
    pub total_field: u32,
    /// How many data bytes there are, and what they repeat.
    pub data_bytes: usize,
    pub data: Vec<u8>,
    pub reserved: [u8; 12],
    pub table_reserved: [u8; 12],
    /// The table's count field.
    pub count: u32,
    pub wrong: Wrong,
}

impl Recipe {
    /// An update of a total size, with a table if there is more than one pair.
    pub fn new(revision: u32, pairs: &[Pair], total: usize) -> Recipe {
        let data_bytes = total - 48 - table_length(pairs);
        Recipe {
            version: 1,
            revision,
            date: 0x0718_1998,
            loader: 1,
            pairs: pairs.to_vec(),
            data_field: data_bytes as u32,
            total_field: total as u32,
            data_bytes,
            data: vec![0],
            reserved: [0; 12],
            table_reserved: [0; 12],
            count: pairs.len() as u32 - 1,
            wrong: Wrong::default(),
        }
    }

    /// An update of 2,048 bytes in the short form: both size fields 0.
    pub fn short(revision: u32, signature: u32, flags: u32) -> Recipe {
        Recipe {
            data_field: 0,
            total_field: 0,
            ..Recipe::new(revision, &[(signature, flags)], 2048)
        }
    }

    /// How many bytes there are.
    pub fn length(&self) -> usize {
        48 + self.data_bytes + table_length(&self.pairs)
    }

    /// The update's bytes.
    pub fn build(&self) -> Vec<u8> {
        let mut bytes = Vec::with_capacity(self.length());
        let (signature, flags) = self.pairs[0];
        put(&mut bytes, self.version);
        put(&mut bytes, self.revision);
        put(&mut bytes, self.date);
        put(&mut bytes, signature);
        put(&mut bytes, 0);
        put(&mut bytes, self.loader);
        put(&mut bytes, flags);
        put(&mut bytes, self.data_field);
        put(&mut bytes, self.total_field);
        bytes.extend_from_slice(&self.reserved);
        bytes.extend(self.data.iter().cycle().take(self.data_bytes));

        // The table comes to wrong.table, so the rest has to make up the total. Where D
        // is no multiple of 4, the bytes behind the last whole dword don't count.
        let dwords = bytes.len() / 4 * 4;
        let table_sum = if self.pairs.len() > 1 {
            self.wrong.table
        } else {
            0
        };
        let checksum = self
            .wrong
            .total
            .wrapping_sub(table_sum)
            .wrapping_sub(sum(&bytes[..dwords]));
        set(&mut bytes, 16, checksum);
        if self.pairs.len() > 1 {
            self.build_table(&mut bytes, checksum);
        }
        bytes
    }

    fn build_table(&self, bytes: &mut Vec<u8>, checksum: u32) {
        let (signature, flags) = self.pairs[0];
        let line = signature.wrapping_add(flags).wrapping_add(checksum);
        let table = bytes.len();
        put(bytes, self.count);
        put(bytes, 0);
        bytes.extend_from_slice(&self.table_reserved);
        for (entry, &(signature, flags)) in self.pairs[1..].iter().enumerate() {
            let off = match self.wrong.entry {
                Some((wrong, off)) if wrong == entry => off,
                _ => 0,
            };
            put(bytes, signature);
            put(bytes, flags);
            let rest = line.wrapping_sub(signature).wrapping_sub(flags);
            put(bytes, rest.wrapping_add(off));
        }
        let rest = sum(&bytes[table..]);
        set(bytes, table + 4, self.wrong.table.wrapping_sub(rest));
    }
}

/// The length of the table that the pairs ask for.
fn table_length(pairs: &[Pair]) -> usize {
    match pairs.len() - 1 {
        0 => 0,
        entries => 20 + 12 * entries,
    }
}

fn put(bytes: &mut Vec<u8>, number: u32) {
    bytes.extend_from_slice(&number.to_le_bytes());
}

/// Sets the number at an offset.
pub fn set(bytes: &mut [u8], at: usize, number: u32) {
    bytes[at..at + 4].copy_from_slice(&number.to_le_bytes());
}

/// The update P of document 01, with any revision.
pub fn p(revision: u32) -> Vec<u8> {
    Recipe::short(revision, 0x650, 0x06).build()
}

/// A store of unused blocks.
pub fn unused(blocks: usize) -> Vec<u8> {
    vec![0xFF; blocks * BLOCK]
}

/// Puts an update at a block.
pub fn place(store: &mut [u8], block: usize, update: &[u8]) {
    store[block * BLOCK..block * BLOCK + update.len()].copy_from_slice(update);
}

/// A store with some updates in it.
pub fn store(blocks: usize, updates: &[(usize, &[u8])]) -> Vec<u8> {
    let mut bytes = unused(blocks);
    for &(block, update) in updates {
        place(&mut bytes, block, update);
    }
    bytes
}
