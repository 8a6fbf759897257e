//! An update, judged in one pass over its bytes.

use super::{Refusal, BLOCK, ENTRY, HEADER, INVALID_HEADER, INVALID_HEADER_CS, TABLE_HEAD};

fn dword(bytes: &[u8], at: usize) -> u32 {
    u32::from_le_bytes(bytes[at..at + 4].try_into().unwrap())
}

fn sum(bytes: &[u8]) -> u32 {
    bytes
        .chunks_exact(4)
        .map(|dword| u32::from_le_bytes(dword.try_into().unwrap()))
        .fold(0, u32::wrapping_add)
}

pub fn unused(bytes: &[u8]) -> bool {
    bytes.iter().all(|&byte| byte == 0xFF)
}

/// An update whose bytes have been judged.
#[derive(Clone, Copy)]
pub struct Update<'a> {
    /// Its T bytes.
    pub bytes: &'a [u8],
    pub data: usize,
    /// The table's entries, empty if there is no table.
    pub entries: &'a [u8],
}

impl<'a> Update<'a> {
    /// Judges the update at the beginning of the bytes.
    pub fn judge(bytes: &'a [u8]) -> Result<Update<'a>, Refusal> {
        if bytes.len() < HEADER || dword(bytes, 0) != 1 || dword(bytes, 20) != 1 {
            return Err(INVALID_HEADER);
        }
        let (data, total) = match dword(bytes, 28) {
            0 => (2000, 2048),
            data => (data as u64, dword(bytes, 32) as u64),
        };
        if !data.is_multiple_of(4) || total > 32_768 || total > bytes.len() as u64 {
            return Err(INVALID_HEADER);
        }
        let Some(table) = total.checked_sub(HEADER as u64 + data) else {
            return Err(INVALID_HEADER);
        };
        // Everything fits in 32,768 bytes now.
        let (data, total, table) = (data as usize, total as usize, table as usize);
        let bytes = &bytes[..total];
        let table = &bytes[total - table..];
        let mut entries = &table[..0];
        if table.is_empty() {
            if !total.is_multiple_of(1024) {
                return Err(INVALID_HEADER);
            }
        } else {
            // D and the table's length are multiples of 4, so T is one too.
            let length = table.len().wrapping_sub(TABLE_HEAD);
            if !(ENTRY..=64 * ENTRY).contains(&length)
                || !length.is_multiple_of(ENTRY)
                || dword(table, 0) as usize != length / ENTRY
            {
                return Err(INVALID_HEADER);
            }
            entries = &table[TABLE_HEAD..];
        }

        if sum(bytes) != 0 || sum(table) != 0 {
            return Err(INVALID_HEADER_CS);
        }
        let line = dword(bytes, 12)
            .wrapping_add(dword(bytes, 24))
            .wrapping_add(dword(bytes, 16));
        if entries.chunks_exact(ENTRY).any(|entry| sum(entry) != line) {
            return Err(INVALID_HEADER_CS);
        }
        Ok(Update {
            bytes,
            data,
            entries,
        })
    }

    pub fn revision(&self) -> u32 {
        dword(self.bytes, 4)
    }

    pub fn blocks(&self) -> usize {
        self.bytes.len().div_ceil(BLOCK)
    }

    /// Signature and flags of the header and of each entry.
    pub fn pairs(&self) -> impl Iterator<Item = (u32, u32)> + 'a {
        let header = (dword(self.bytes, 12), dword(self.bytes, 24));
        let entries = self.entries.chunks_exact(ENTRY);
        std::iter::once(header).chain(entries.map(|entry| (dword(entry, 0), dword(entry, 4))))
    }

    /// Whether it covers the signature with one of the platforms in a mask.
    pub fn covers(&self, signature: u32, platforms: u32) -> bool {
        self.pairs()
            .any(|(own, flags)| own == signature && flags & platforms & 0xFF != 0)
    }

    pub fn shares(&self, other: &Update) -> bool {
        self.pairs()
            .any(|(signature, flags)| flags & 0xFF != 0 && other.covers(signature, flags))
    }
}
