//! An update: its size rules, its sums, and the processors it covers.

use std::collections::BTreeSet;

/// A signature and a platform number from 0 to 7.
pub type Processor = (u32, u32);

/// A signature and its flags, as they stand in a header or in a table entry.
pub type Pair = (u32, u32);

/// The sizes of an update whose size rules hold: its data bytes, all its bytes, and
/// the entries of its table (0 if it has none).
#[derive(Clone, Copy, Debug, PartialEq, Eq)]
pub struct Sizes {
    pub data: u64,
    pub total: u64,
    pub entries: u64,
}

/// A valid update.
#[derive(Clone, Debug)]
pub struct Update {
    pub revision: u32,
    pub sizes: Sizes,
    /// The header's pair, then the entries' pairs.
    pub pairs: Vec<Pair>,
    /// Every processor that some pair names.
    pub covered: BTreeSet<Processor>,
}

/// Why bytes are no valid update.
#[derive(Clone, Copy, Debug, PartialEq, Eq)]
pub enum Fault {
    /// A version, a loader version or a size rule.
    Header,
    /// One of the sums.
    Sums,
}

/// The number at an offset.
pub fn number(bytes: &[u8], at: usize) -> u32 {
    u32::from_le_bytes([bytes[at], bytes[at + 1], bytes[at + 2], bytes[at + 3]])
}

/// The sum of all dwords, modulo 2^32.
pub fn sum(bytes: &[u8]) -> u32 {
    let mut total = 0u64;
    for at in (0..bytes.len()).step_by(4) {
        total += u64::from(number(bytes, at));
    }
    (total % (1 << 32)) as u32
}

/// The length of a table of n entries; no entries means no table.
fn table_length(entries: u64) -> u64 {
    match entries {
        0 => 0,
        n => 20 + 12 * n,
    }
}

/// The sizes that the fields at 28 and 32 give, if they keep the size rules.
pub fn sizes(data_field: u32, total_field: u32) -> Option<Sizes> {
    if data_field == 0 {
        return Some(Sizes {
            data: 2000,
            total: 2048,
            entries: 0,
        });
    }
    let data = u64::from(data_field);
    let total = u64::from(total_field);
    if !data.is_multiple_of(4) || total > 32_768 {
        return None;
    }
    let entries = (0..=64).find(|&n| total == 48 + data + table_length(n))?;
    // With a table T needs only a multiple of 4, without one a multiple of 1,024.
    let unit = if entries == 0 { 1024 } else { 4 };
    if !total.is_multiple_of(unit) {
        return None;
    }
    Some(Sizes {
        data,
        total,
        entries,
    })
}

/// The processors that pairs cover.
fn covered(pairs: &[Pair]) -> BTreeSet<Processor> {
    pairs
        .iter()
        .flat_map(|&(signature, flags)| {
            (0..8)
                .filter(move |platform| flags >> platform & 1 == 1)
                .map(move |platform| (signature, platform))
        })
        .collect()
}

impl Update {
    /// Reads the update at the beginning of the bytes. Bytes behind it are not judged.
    pub fn parse(bytes: &[u8]) -> Result<Update, Fault> {
        if bytes.len() < 48 || number(bytes, 0) != 1 || number(bytes, 20) != 1 {
            return Err(Fault::Header);
        }
        let sizes = sizes(number(bytes, 28), number(bytes, 32)).ok_or(Fault::Header)?;
        if sizes.total > bytes.len() as u64 {
            return Err(Fault::Header);
        }
        let whole = &bytes[..sizes.total as usize];
        let table = &whole[whole.len() - table_length(sizes.entries) as usize..];
        if !table.is_empty() && u64::from(number(table, 0)) != sizes.entries {
            return Err(Fault::Header);
        }

        if sum(whole) != 0 || sum(table) != 0 {
            return Err(Fault::Sums);
        }
        let header = (number(whole, 12), number(whole, 24), number(whole, 16));
        let mut pairs = vec![(header.0, header.1)];
        for entry in 0..sizes.entries as usize {
            let at = 20 + 12 * entry;
            let line = (
                number(table, at),
                number(table, at + 4),
                number(table, at + 8),
            );
            if line_sum(line) != line_sum(header) {
                return Err(Fault::Sums);
            }
            pairs.push((line.0, line.1));
        }
        Ok(Update {
            revision: number(whole, 4),
            sizes,
            covered: covered(&pairs),
            pairs,
        })
    }

    /// How many blocks the update takes.
    pub fn blocks(&self) -> usize {
        self.sizes.total.div_ceil(2048) as usize
    }

    pub fn covers(&self, processor: Processor) -> bool {
        self.covered.contains(&processor)
    }

    /// Whether the two cover a common processor.
    pub fn shares(&self, other: &Update) -> bool {
        !self.covered.is_disjoint(&other.covered)
    }
}

/// Signature, flags and checksum together, modulo 2^32.
fn line_sum((signature, flags, checksum): (u32, u32, u32)) -> u32 {
    signature.wrapping_add(flags).wrapping_add(checksum)
}
