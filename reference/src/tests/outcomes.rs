//! Tests of the choice among outcomes, on random writes.

use crate::calls::{Answer, Call, Request, BLOCK, CONTROL, READ, WRITE};
use crate::generate::{Generator, Style};
use crate::model;
use crate::store::{Held, Store};
use crate::update::{Processor, Update};
use crate::write::{listed, Choice, Outcome, ALL_SETS};
use std::collections::BTreeMap;

#[test]
fn both_searches_find_the_same_best_outcome() {
    let mut generator = Generator::new(3, Style::Wide);
    let mut compared = 0;
    let mut full = 0;
    for _ in 0..20_000 {
        let call = generator.draw();
        let store = Store::parse(&call.store);
        let list = listed(&call.signatures, &call.platforms);
        let candidate = Update::parse(&call.candidate);
        if let (Some(store), Some(list), Ok(candidate)) = (store, list, candidate) {
            if store.held.len() <= ALL_SETS {
                let choice = Choice::new(&store, &list, &candidate);
                let all = choice.all_legal();
                let least = choice.least_legal();
                let key =
                    |outcome: &Outcome| (outcome.emptied_count(), outcome.start, outcome.emptied);
                assert_eq!(all.iter().map(key).min(), least.iter().map(key).min());
                assert_eq!(all.is_empty(), !may_write(&choice, &store, &list));
                compared += 1;
                full += usize::from(all.is_empty());
            }
        }
        let answer = model::answer(call);
        generator.answered(answer);
    }
    assert!(compared > 5000 && full > 500, "{compared}, {full}");
}

/// Checks 7 and 8, as document 01 words them.
fn may_write(choice: &Choice, store: &Store, listed: &[Processor]) -> bool {
    let updates = 0..store.held.len();
    let kept = updates
        .into_iter()
        .any(|index| choice.sharing[index] && choice.needed[index]);
    let covers_listed = |index: usize| {
        let update = &store.held[index].update;
        listed.iter().any(|&processor| update.covers(processor))
    };
    let free = |owner: &Option<usize>| match *owner {
        None => true,
        Some(index) => choice.sharing[index] || !covers_listed(index),
    };
    let mut runs = choice.owners.windows(choice.wanted);
    !kept && runs.any(|run| run.iter().all(free))
}

/// The update calls' sub-function; a read through an index is a read too, and the other
/// functions have none.
fn sub_function(call: &Call) -> Option<u32> {
    match call.request {
        Request::Update { sub_function, .. } => Some(sub_function),
        Request::ReadIndexed { .. } => Some(READ),
        Request::Load { .. } | Request::LoadIndexed { .. } => None,
        Request::Index | Request::IndexAfter { .. } => None,
    }
}

#[test]
fn only_an_accepted_call_changes_what_is_its_own() {
    let mut generator = Generator::new(4, Style::Wide);
    let mut changed = [0; 3];
    for _ in 0..20_000 {
        let call = generator.draw();
        let answer = model::answer(call);
        let accepted = |own| answer.ax == 0 && sub_function(call) == Some(own);
        let loading = call.loading && call.request.takes_loading();
        let parts = [
            (WRITE, answer.store != call.store),
            (READ, answer.destination != call.destination),
            (CONTROL, answer.words[3] != u32::from(loading)),
        ];
        for (count, (own, differs)) in changed.iter_mut().zip(parts) {
            assert!(accepted(own) || !differs, "{:X?}", call.request);
            *count += usize::from(differs);
        }
        generator.answered(answer);
    }
    assert!(changed.iter().all(|&count| count > 100), "{changed:?}");
}

#[test]
fn an_accepted_write_keeps_what_is_needed_and_counts_what_is_gone() {
    let mut generator = Generator::new(4, Style::Wide);
    let mut accepted = 0;
    for _ in 0..20_000 {
        let call = generator.draw();
        let answer = model::answer(call);
        if answer.ax == 0 && sub_function(call) == Some(WRITE) {
            judge(call, &answer);
            accepted += 1;
        }
        generator.answered(answer);
    }
    assert!(accepted > 2000, "{accepted}");
}

/// What demand 3 says of the store after an accepted write.
fn judge(call: &Call, answer: &Answer) {
    let before = Store::parse(&call.store).unwrap();
    let after = Store::parse(&answer.store).expect("a valid store");
    let list = listed(&call.signatures, &call.platforms).unwrap();
    let candidate = Update::parse(&call.candidate).unwrap();
    let start = answer.words[5] as usize;

    let bytes = |store: &[u8], held: &Held| {
        let from = held.first * BLOCK;
        store[from..from + held.blocks * BLOCK].to_vec()
    };
    let updates = |store: &Store, all: &[u8]| -> BTreeMap<usize, Vec<u8>> {
        let held = store.held.iter();
        held.map(|held| (held.first, bytes(all, held))).collect()
    };
    let old = updates(&before, &call.store);
    let mut new = updates(&after, &answer.store);

    // The candidate stands at its start, with FFh behind it.
    let mut run = call.candidate[..candidate.sizes.total as usize].to_vec();
    run.resize(candidate.blocks() * BLOCK, 0xFF);
    assert!(new.remove(&start) == Some(run), "the candidate");

    // Whatever else stands there stood there before, and the rest is counted.
    assert!(new
        .iter()
        .all(|(first, bytes)| old.get(first) == Some(bytes)));
    assert_eq!(old.len() - new.len(), answer.words[6] as usize);
    let gone = before.held.iter();
    let gone = gone.filter(|held| !new.contains_key(&held.first));
    let blocks = gone.flat_map(|held| held.first..held.first + held.blocks);
    assert_eq!(blocks.map(|block| 1 << block).sum::<u32>(), answer.words[7]);

    // Each listed processor that was covered still is.
    let covers = |store: &Store, processor| {
        let mut held = store.held.iter();
        held.any(|held| held.update.covers(processor))
    };
    for processor in list {
        assert!(covers(&after, processor) || !covers(&before, processor));
    }
}
