//! The catalogue of a store, as text.

use crate::store::Store;
use std::fmt::Write;

/// The catalogue's lines, or `bad store`. More than 32 blocks are a bad store too.
pub fn catalogue(bytes: &[u8]) -> String {
    let Some(store) = Store::parse(bytes) else {
        return "bad store\n".to_string();
    };
    let mut text = format!("blocks {}\n", store.blocks);
    let mut free = store.blocks;
    for held in &store.held {
        let flags = held.update.pairs[0].1;
        let named: Vec<u32> = (0..8)
            .filter(|platform| flags >> platform & 1 == 1)
            .collect();
        let lowest = named.first().copied().unwrap_or(8);
        writeln!(
            text,
            "{} {} {:08X} {} {}",
            held.first,
            held.blocks,
            held.update.revision,
            named.len(),
            lowest
        )
        .expect("a string takes any text");
        free -= held.blocks;
    }
    writeln!(text, "free {free}").expect("a string takes any text");
    text
}
