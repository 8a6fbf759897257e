//! The kinds of work that are timed.

use super::indexed::indexed_works;
use crate::calls::{Call, Request, BLOCK, PRESENCE};
use crate::edges::{base, writing};
use crate::make::{self, Recipe};
use crate::update::Pair;

/// One kind of work.
pub struct Work {
    pub name: String,
    pub call: Call,
    /// The right result.
    pub ax: u32,
    /// The bytes that a scan reads, if the work is a scan.
    pub scanned: Option<usize>,
    /// The name of the work that does the same without an index.
    pub beside: Option<String>,
}

impl Work {
    pub fn new(name: &str, call: Call, ax: u32) -> Work {
        Work {
            name: name.to_string(),
            call,
            ax,
            scanned: None,
            beside: None,
        }
    }

    /// A presence call, which reads the whole store.
    fn scan(name: &str, store: Vec<u8>) -> Work {
        let scanned = Some(store.len());
        let call = Call {
            store,
            ..base(Request::update(PRESENCE))
        };
        Work {
            scanned,
            ..Work::new(name, call, 0)
        }
    }
}

/// One-block updates that do not share, each with so many pairs.
pub fn one_block_updates(blocks: usize, pairs: usize) -> Vec<u8> {
    let mut store = make::unused(blocks);
    for block in 0..blocks {
        let own: Vec<Pair> = (0..pairs)
            .map(|pair| (0x1000 * (block as u32 + 1) + pair as u32, 1))
            .collect();
        make::place(&mut store, block, &Recipe::new(1, &own, BLOCK).build());
    }
    store
}

fn sixteen_blocks(signature: u32, pairs: usize) -> Vec<u8> {
    let own: Vec<Pair> = (0..pairs)
        .map(|pair| (signature + pair as u32, 1))
        .collect();
    Recipe::new(1, &own, 16 * BLOCK).build()
}

/// The scans whose growth is told.
pub const GROWTH: [usize; 3] = [1, 8, 32];

pub fn growth_name(blocks: usize) -> String {
    format!("presence, one-block updates, N = {blocks}")
}

pub const UNUSED_BLOCKS: &str = "presence, 32 unused blocks";

fn scans() -> Vec<Work> {
    let two = (sixteen_blocks(0x1000, 65), sixteen_blocks(0x2000, 65));
    let off_kilobyte = Recipe::new(1, &[(0x1000, 1), (0x1001, 1)], 2044).build();
    let mut works = vec![
        Work::scan(
            "presence, one update of 2 KB",
            make::store(1, &[(0, &make::p(7))]),
        ),
        Work::scan(
            "presence, one update of 32 KB",
            make::store(16, &[(0, &sixteen_blocks(0x700, 1))]),
        ),
        Work::scan("presence, 2 KB with 64 entries", one_block_updates(1, 65)),
        Work::scan(
            "presence, 2,044 bytes with one entry",
            make::store(1, &[(0, &off_kilobyte)]),
        ),
    ];
    for blocks in GROWTH {
        works.push(Work::scan(
            &growth_name(blocks),
            one_block_updates(blocks, 1),
        ));
    }
    works.push(Work::scan(UNUSED_BLOCKS, make::unused(32)));
    works.push(Work::scan(
        "presence, 32 updates with 60 entries",
        one_block_updates(32, 61),
    ));
    works.push(Work::scan(
        "presence, two of 32 KB with 64 entries",
        make::store(32, &[(0, &two.0), (16, &two.1)]),
    ));
    works
}

fn reads() -> Vec<Work> {
    let read = |name: &str, store, block, blocks: usize| {
        let call = Call {
            store,
            destination: vec![0; blocks * BLOCK],
            ..base(Request::read(block))
        };
        Work::new(name, call, 0)
    };
    let sixteen = make::store(16, &[(0, &sixteen_blocks(0x700, 1))]);
    let mut works = vec![
        read(
            "read of one block",
            make::store(1, &[(0, &make::p(7))]),
            0,
            1,
        ),
        read("read of 16 blocks", sixteen, 0, 16),
    ];
    for blocks in [8, 32] {
        works.push(read(
            &format!("read of the last of {blocks} blocks"),
            one_block_updates(blocks, 1),
            blocks as u32 - 1,
            1,
        ));
    }
    works
}

fn loads() -> Vec<Work> {
    let load = |name: &str, blocks| {
        let call = Call {
            loading: true,
            store: one_block_updates(blocks, 1),
            ..base(Request::Load {
                signature: 0x1000 * blocks as u32,
                platform: 0,
            })
        };
        Work::new(name, call, 0)
    };
    vec![
        load("load choice, the only update", 1),
        load("load choice, the last of 8 updates", 8),
        load("load choice, the last of 32 updates", 32),
    ]
}

fn writes() -> Vec<Work> {
    let mut works = Vec::new();
    for blocks in GROWTH {
        let store = one_block_updates(blocks, 1);
        let signature = 0x1000 * blocks as u32;
        let same = Recipe::new(1, &[(signature, 1)], BLOCK).build();
        let newer = Recipe::new(2, &[(signature, 1)], BLOCK).build();
        let listed = [(signature, 0)];
        works.push(Work::new(
            &format!("write refused (98), N = {blocks}"),
            writing(&store, &listed, &same),
            0x9800,
        ));
        works.push(Work::new(
            &format!("write accepted, empties one, N = {blocks}"),
            writing(&store, &listed, &newer),
            0,
        ));
    }
    works.push(Work::new(
        "write of 16 blocks over 16 of 32 stale updates",
        writing(
            &one_block_updates(32, 1),
            &[(0x700, 0)],
            &sixteen_blocks(0x700, 1),
        ),
        0,
    ));
    works
}

/// All works, those with the index last.
pub fn works() -> Vec<Work> {
    let unknown = base(Request::Update {
        function: 0x1D042,
        sub_function: 0,
        task: 0,
        block: 0,
        read_back: 0,
    });
    let mut works = scans();
    works.extend(reads());
    works.extend(loads());
    works.extend(writes());
    works.push(Work::new("control", base(Request::control(2)), 0));
    works.push(Work::new("unknown function", unknown, 0x8600));
    let indexed = indexed_works(&works);
    works.extend(indexed);
    works
}
