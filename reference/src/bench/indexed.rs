//! The timed works with the index: making it, carrying it, and going by it.

use super::works::{growth_name, one_block_updates, Work, GROWTH, UNUSED_BLOCKS};
use crate::calls::{Call, Request, READ};
use crate::edges::base;
use crate::index::own;

/// A work on the inputs of another one, which it is told beside.
fn beside(plain: &Work, name: String, request: Request) -> Work {
    Work {
        name,
        call: Call {
            request,
            ..plain.call.clone()
        },
        ax: plain.ax,
        scanned: plain.scanned,
        beside: Some(plain.name.clone()),
    }
}

/// Makes the index of the stores of some presence calls.
fn indexes(plain: &[Work]) -> Vec<Work> {
    let mut names = GROWTH.map(growth_name).to_vec();
    names.push(UNUSED_BLOCKS.to_string());
    plain
        .iter()
        .filter(|work| names.contains(&work.name))
        .map(|work| {
            let name = work.name.replace("presence", "index");
            beside(work, name, Request::Index)
        })
        .collect()
}

/// Carries an index over a write into the last block, and over one of 16 blocks.
fn carried() -> Vec<Work> {
    let old = own(&one_block_updates(32, 1));
    let after = |name: &str, emptied, start, size| {
        let request = Request::IndexAfter {
            old,
            emptied,
            start,
            revision: 2,
            size,
        };
        Work::new(name, base(request), 0)
    };
    vec![
        after("index after a write of one block", 1 << 31, 31, 1),
        after("index after a write of 16 blocks", 0xFFFF, 0, 16),
    ]
}

/// The reads and loads, each through the store's own index.
fn through(plain: &[Work]) -> Vec<Work> {
    let mut works = Vec::new();
    for work in plain {
        let index = own(&work.call.store);
        let request = match work.call.request {
            Request::Update {
                sub_function: READ,
                block,
                ..
            } => Request::ReadIndexed { index, block },
            Request::Load {
                signature,
                platform,
            } => Request::LoadIndexed {
                index,
                signature,
                platform,
            },
            _ => continue,
        };
        works.push(beside(work, format!("{}, indexed", work.name), request));
    }
    works
}

/// The works with the index, beside those without it.
pub fn indexed_works(plain: &[Work]) -> Vec<Work> {
    let mut works = indexes(plain);
    works.extend(carried());
    works.extend(through(plain));
    works
}
