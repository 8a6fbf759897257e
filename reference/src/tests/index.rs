//! Tests of the index: built from a store, and carried over a write.

use super::{ask, index_of, write};
use crate::calls::Request;
use crate::generate::{Generator, Style};
use crate::index::{built, carried, line, Index, Line, ALL_UNUSED};
use crate::make::{self, p, Recipe};
use crate::model;
use crate::store::Store;
use crate::update::{number, Update};

/// An index that has these lines, and is unused elsewhere: block, kind, start, revision
/// and size.
fn index_with(lines: &[(usize, u32, u32, u32, u32)]) -> Index {
    let mut index = [0; 128];
    for &(block, kind, start, revision, size) in lines {
        index[block] = kind;
        index[32 + block] = start;
        index[64 + block] = revision;
        index[96 + block] = size;
    }
    index
}

#[test]
fn four_blocks_with_p_in_block_1() {
    let store = make::store(4, &[(1, &p(7))]);
    assert_eq!(index_of(&store), index_with(&[(1, 1, 1, 7, 1)]));
    // P with revision 8: start 0, emptied 1, and the emptied block is block 1.
    let answer = write(&store, &[(0x650, 1)], &p(8));
    assert_eq!(answer.words[4..9], [1, 0, 1, 2, 0]);
    let after = index_with(&[(0, 1, 0, 8, 1)]);
    assert_eq!(index_of(&answer.store), after);
    let request = Request::IndexAfter {
        old: index_of(&store),
        emptied: 2,
        start: 0,
        revision: 8,
        size: 1,
    };
    let carried = ask(&answer.store, request);
    assert_eq!((carried.ax, carried.words), (0, [0; 16]));
    assert_eq!(carried.index, Some(after));
}

#[test]
fn the_emptied_blocks_of_document_01s_cases() {
    let other = |signature, total| Recipe::new(1, &[(signature, 1)], total).build();
    let two_wanted = Recipe::new(8, &[(0x650, 2)], 4096).build();
    let words = |store: &[u8]| {
        let answer = write(store, &[(0x650, 1)], &two_wanted);
        assert_eq!(answer.ax, 0);
        answer.words[5..8].to_vec()
    };
    let (one, two) = (other(0x700, 2048), other(0x701, 4096));
    assert_eq!(words(&make::store(4, &[(0, &one)])), [1, 0, 0]);
    let both = make::store(4, &[(0, &two), (2, &one)]);
    assert_eq!(words(&both), [0, 1, 0b11]);
    // Two that share, behind 25 stale ones: all their blocks, of which the run takes one.
    let (three, four) = (other(0x702, 6144), other(0x703, 8192));
    let mut full = make::store(32, &[(25, &three), (28, &four)]);
    for block in 0..25 {
        make::place(&mut full, block, &other(0x800 + block as u32, 2048));
    }
    let newer = Recipe::new(8, &[(0x650, 2), (0x702, 1), (0x703, 1)], 2048).build();
    let answer = write(&full, &[(0x650, 1)], &newer);
    assert_eq!(answer.words[5..8], [25, 2, 0xFE00_0000]);
    // E, in the last of three blocks, and the candidate in the first.
    let e = Recipe::new(5, &[(0xA00, 1), (0xB00, 1)], 2048).build();
    let answer = write(
        &make::store(3, &[(2, &e)]),
        &[(0xA00, 0)],
        &Recipe::short(6, 0xA00, 1).build(),
    );
    assert_eq!(answer.words[5..8], [0, 1, 0b100]);
}

#[test]
fn a_later_block_has_its_updates_numbers() {
    let three = Recipe::new(9, &[(0x700, 1)], 5120).build();
    let store = make::store(6, &[(0, &p(7)), (2, &three)]);
    let right = [
        (0, 1, 0, 7, 1),
        (2, 1, 2, 9, 3),
        (3, 2, 2, 9, 3),
        (4, 2, 2, 9, 3),
    ];
    assert_eq!(index_of(&store), index_with(&right));
}

#[test]
fn the_index_of_a_bad_store_is_all_unused() {
    let twice = make::store(4, &[(0, &p(7)), (1, &p(8))]);
    for store in [vec![], vec![0xFF; 2047], make::unused(33), twice] {
        let answer = ask(&store, Request::Index);
        let mut words = [0; 16];
        words[..5].copy_from_slice(&[0x92, 1, 1, 0, 1]);
        assert_eq!((answer.ax, answer.words), (0x9201, words));
        assert_eq!(answer.index, Some(ALL_UNUSED));
    }
    for blocks in [1, 4, 32] {
        assert_eq!(index_of(&make::unused(blocks)), ALL_UNUSED);
    }
}

#[test]
fn carried_line_by_line_for_any_numbers() {
    let mut old = [0; 128];
    for (place, number) in old.iter_mut().enumerate() {
        *number = 0x1000 + place as u32;
    }
    let edges = [
        0,
        1,
        2,
        15,
        16,
        17,
        30,
        31,
        32,
        33,
        1 << 31,
        u32::MAX - 1,
        u32::MAX,
    ];
    for emptied in [0, 1, 1 << 31, 0x0F0F_0F0F, u32::MAX] {
        for start in edges {
            for size in edges {
                let new = carried(&old, emptied, start, 77, size);
                let mut right = old;
                for block in 0..32 {
                    let behind = (block as i64) - i64::from(start);
                    let line = match behind {
                        0 if size > 0 => Some([1, start, 77, size]),
                        1.. if behind < i64::from(size) => Some([2, start, 77, size]),
                        _ if emptied & 1 << block != 0 => Some([0; 4]),
                        _ => None,
                    };
                    for (column, number) in line.iter().flatten().enumerate() {
                        right[32 * column + block] = *number;
                    }
                }
                assert_eq!(new, right, "{emptied:X} {start:X} {size:X}");
            }
        }
    }
    assert_eq!(carried(&old, 0, 32, 77, u32::MAX), old);
    assert_eq!(carried(&old, 0, 31, 77, 0), old);
}

/// What the lines of an index say by themselves: each is nothing, or agrees with the line
/// of its first block.
fn judge_lines(index: &Index, blocks: usize) {
    for block in 0..32 {
        let own = line(index, block);
        let nothing = Line {
            kind: 0,
            start: 0,
            revision: 0,
            size: 0,
        };
        if own.kind == 0 || block >= blocks {
            assert_eq!(own, nothing);
            continue;
        }
        let (start, size) = (own.start as usize, own.size as usize);
        assert!(start <= block && block < start + size && start + size <= blocks);
        let first = Line { kind: 1, ..own };
        assert_eq!(line(index, start), first);
        assert_eq!(own.kind, if block == start { 1 } else { 2 });
    }
}

#[test]
fn carried_equals_built_after_every_accepted_write() {
    for (style, seed) in [(Style::Wide, 7), (Style::Compact, 8)] {
        let mut generator = Generator::new(seed, style);
        let mut accepted = 0;
        let mut emptied = 0;
        for _ in 0..20_000 {
            let call = generator.draw();
            let answer = model::answer(call);
            if answer.store != call.store {
                let before = Store::parse(&call.store).unwrap();
                let after = Store::parse(&answer.store).unwrap();
                let size = Update::parse(&call.candidate).unwrap().blocks() as u32;
                let [start, _, blocks] = [5, 6, 7].map(|word| answer.words[word]);
                let revision = number(&call.candidate, 4);
                let carried = carried(&built(&before), blocks, start, revision, size);
                assert_eq!(carried, built(&after));
                judge_lines(&carried, after.blocks);
                accepted += 1;
                emptied += u32::from(blocks != 0);
            }
            generator.answered(answer);
        }
        assert!(accepted > 2000 && emptied > 1000, "{accepted} {emptied}");
    }
}
