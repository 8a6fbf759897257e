//! Tests of the plain form against the model: every word, and every byte lent.

use crate::calls::{Answer, Call, Request};
use crate::edges::edges;
use crate::fast;
use crate::generate::{Generator, Style};
use crate::index::Index;
use crate::model;

/// What an index holds before a function makes it.
const UNWRITTEN: Index = [0xDEAD_BEEF; 128];

/// The plain form's answer to a call. The words are preset, so that one left out shows.
pub fn plain_answer(call: &Call) -> Answer {
    let mut words = [0xDEAD_BEEF; 16];
    let mut index = UNWRITTEN;
    let mut store = call.store.clone();
    let mut destination = call.destination.clone();
    let ax = match call.request {
        Request::Update {
            function,
            sub_function,
            task,
            block,
            read_back,
        } => fast::call(
            function,
            sub_function,
            task,
            block,
            call.loading,
            &mut store,
            &call.signatures,
            &call.platforms,
            &call.candidate,
            read_back,
            &mut destination,
            &mut words,
        ),
        Request::Load {
            signature,
            platform,
        } => fast::load(call.loading, &store, signature, platform, &mut words),
        Request::Index => fast::index(&store, &mut index, &mut words),
        Request::IndexAfter {
            ref old,
            emptied,
            start,
            revision,
            size,
        } => fast::index_after(old, emptied, start, revision, size, &mut index, &mut words),
        Request::ReadIndexed {
            index: ref own,
            block,
        } => fast::read_indexed(own, block, &store, &mut destination, &mut words),
        Request::LoadIndexed {
            index: ref own,
            signature,
            platform,
        } => fast::load_indexed(call.loading, own, &store, signature, platform, &mut words),
    };
    Answer {
        ax,
        words,
        store,
        destination,
        index: (index != UNWRITTEN).then_some(index),
    }
}

/// The two answers are the same; if not, the call and the words are told.
fn agree(number: usize, call: &Call, right: &Answer) {
    let plain = plain_answer(call);
    let told = format!("call {number}, {:X?}", call.request);
    assert_eq!((plain.ax, plain.words), (right.ax, right.words), "{told}");
    assert!(plain.store == right.store, "{told}: the store");
    assert!(
        plain.destination == right.destination,
        "{told}: the destination"
    );
    assert!(plain.index == right.index, "{told}: the index");
}

#[test]
fn the_plain_form_agrees_on_random_calls() {
    for (style, seed) in [(Style::Wide, 1), (Style::Compact, 2)] {
        let mut generator = Generator::new(seed, style);
        for number in 0..20_000 {
            let call = generator.draw();
            let answer = model::answer(call);
            agree(number, call, &answer);
            generator.answered(answer);
        }
    }
}

#[test]
fn the_plain_form_agrees_at_every_edge() {
    for (number, call) in edges().iter().enumerate() {
        agree(number, call, &model::answer(call));
    }
}
