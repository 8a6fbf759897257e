//! Calls at every edge that the documents name, laid out one by one.

mod carried;
mod functions;
mod indexed;
mod indexes;
mod loads;
mod off_kilobyte;
mod processors;
mod reads;
mod revisions;
mod runs;
mod sharing;
mod stores;
mod updates;

use crate::calls::{Call, Request, BLOCK, PRESENCE};
use crate::index::own;
use crate::make::{self, p};
use crate::update::number;

/// All edge calls, in order. None depends on what another leaves behind.
pub fn edges() -> Vec<Call> {
    let mut edges = Edges { calls: Vec::new() };
    edges.functions();
    edges.tasks();
    edges.store_lengths();
    edges.one_update_stores();
    edges.bad_stores();
    edges.good_stores();
    edges.candidate_lengths();
    edges.candidate_headers();
    edges.candidate_sizes();
    edges.candidate_tables();
    edges.candidate_sums();
    edges.off_kilobyte_candidates();
    edges.off_kilobyte_writes();
    edges.off_kilobyte_stores();
    edges.lists();
    edges.coverage();
    edges.revisions();
    edges.sharing();
    edges.all_small_stores();
    edges.large_stores();
    edges.read_backs();
    edges.reads();
    edges.loads();
    edges.indexes();
    edges.carried_writes();
    edges.carried_numbers();
    edges.carried_lines();
    edges.indexed_codes();
    edges.indexed_numbers();
    edges.indexed_own();
    edges.indexed_stores();
    edges.calls
}

struct Edges {
    calls: Vec<Call>,
}

/// A call on four blocks with P in block 1, (650h, 1) listed, P with revision 8 as
/// the candidate, and one block of destination.
pub fn base(request: Request) -> Call {
    Call {
        request,
        loading: false,
        store: make::store(4, &[(1, &p(7))]),
        signatures: vec![0x650],
        platforms: vec![1],
        candidate: p(8),
        destination: vec![0xA5; BLOCK],
    }
}

/// A write of a candidate with its own revision read back.
pub fn writing(store: &[u8], listed: &[(u32, u8)], candidate: &[u8]) -> Call {
    let read_back = if candidate.len() < 8 {
        0
    } else {
        number(candidate, 4)
    };
    Call {
        store: store.to_vec(),
        signatures: listed.iter().map(|processor| processor.0).collect(),
        platforms: listed.iter().map(|processor| processor.1).collect(),
        candidate: candidate.to_vec(),
        ..base(Request::write(read_back))
    }
}

impl Edges {
    fn push(&mut self, call: Call) {
        self.calls.push(call);
    }

    fn push_writing(&mut self, store: &[u8], listed: &[(u32, u8)], candidate: &[u8]) {
        self.push(writing(store, listed, candidate));
    }

    /// A presence call, the index, a read of block 0 and a load through it, a write, and
    /// a read and a load without it, on one store.
    fn push_each(&mut self, store: &[u8]) {
        let index = own(store);
        let (signature, platform) = (0x650, 1);
        for request in [
            Request::update(PRESENCE),
            Request::Index,
            Request::ReadIndexed { index, block: 0 },
            Request::LoadIndexed {
                index,
                signature,
                platform,
            },
            Request::write(8),
            Request::read(0),
            Request::Load {
                signature,
                platform,
            },
        ] {
            self.push_on(store, request);
        }
    }

    /// A call on a store, with loading on.
    fn push_on(&mut self, store: &[u8], request: Request) {
        self.push(Call {
            loading: true,
            store: store.to_vec(),
            ..base(request)
        });
    }

    /// A candidate for unused blocks, so that only its own faults count.
    fn push_candidate(&mut self, candidate: &[u8]) {
        self.push_writing(&make::unused(16), &[(0x650, 1)], candidate);
    }
}
