//! Tests of the sum: the published lines of the program that sums slices of every kind.

use super::published;
use crate::update::sum;
use std::fmt::Write;

/// The program that sums them.
const PROGRAM: &str = "test_sums";

/// From which byte on, how many dwords, and how many bytes behind them.
fn slices() -> Vec<(usize, usize, usize)> {
    let mut slices = Vec::new();
    for dwords in [0, 1, 15, 16, 17, 31, 32, 33, 512, 8192] {
        slices.extend((0..4).map(|more| (0, dwords, more)));
    }
    slices.extend([(1, 33, 0), (2, 33, 1), (3, 33, 2), (1, 8192, 3)]);
    slices
}

#[test]
fn the_published_sums_are_the_models() {
    let dwords = (1..=8200u32).map(|k| k.wrapping_mul(0x9E37_79B9));
    let bytes: Vec<u8> = dwords.flat_map(u32::to_le_bytes).collect();
    let mut lines = String::new();
    for (from, dwords, more) in slices() {
        let whole = sum(&bytes[from..][..4 * dwords]);
        writeln!(
            lines,
            "from byte {from}, dwords {dwords}, more bytes {more}: {whole:08x}"
        )
        .unwrap();
    }
    assert_eq!(published(PROGRAM, "stdout"), lines.as_bytes());
}
