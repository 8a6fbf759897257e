//! Tests of the vectors: their steps give back the calls, and the published files are what
//! the model answers.

use super::plain_form::plain_answer;
use super::published;
use super::replay::replay;
use crate::calls::{Answer, Call, Request};
use crate::edges::{base, edges};
use crate::generate::{Generator, Style};
use crate::model;
use crate::vectors::{self, line, Vectors};
use std::env;
use std::fs;
use std::process;

/// The program that runs the vectors.
const PROGRAM: &str = "test_vectors";

#[test]
fn the_steps_give_back_the_calls() {
    let mut vectors = Vectors::new();
    let mut calls = edges();
    for call in &calls {
        vectors.add(call);
    }
    for (style, seed) in [(Style::Compact, 5), (Style::Wide, 6)] {
        let mut generator = Generator::new(seed, style);
        for _ in 0..1000 {
            let call = generator.draw();
            calls.push(call.clone());
            let answer = vectors.add(call);
            generator.answered(answer);
        }
    }
    let mut read = 0;
    replay(&vectors.stdin, |call| {
        let mut right = calls[read].clone();
        right.loading &= call.request.takes_loading();
        assert!(*call == right, "call {read}, {:X?}", call.request);
        read += 1;
        model::answer(call)
    });
    assert_eq!(read, calls.len());
}

#[test]
fn a_line_has_the_answer_and_the_digests() {
    let mut words = [0; 16];
    words[0] = 0x92;
    words[15] = u32::MAX;
    let mut answer = Answer {
        ax: 0x9201,
        words,
        store: vec![1, 2],
        destination: Vec::new(),
        index: None,
    };
    let begin = "00009201 146 0 0 0 0 0 0 0 0 0 0 0 0 0 0 4294967295 000003e2 00000001";
    assert_eq!(line(&answer), format!("{begin}\n"));
    // 31 to the power of 128, and with 5 as the last number.
    for (number, digest) in [(0, "287f6a5f"), (5, "287f6a64")] {
        let mut index = [0; 128];
        index[127] = number;
        answer.index = Some(index);
        assert_eq!(line(&answer), format!("{begin} {digest}\n"));
    }
}

#[test]
fn the_steps_of_the_index() {
    let mut vectors = Vectors::new();
    let mut added = |request| {
        let before = vectors.stdin.len();
        vectors.add(&Call {
            loading: true,
            ..base(request)
        });
        vectors.stdin[before..].to_vec()
    };
    assert_eq!(added(Request::Index).last(), Some(&7));
    // The index of the store is held now: P in block 1, with revision 7.
    let mut index = [0; 128];
    (index[1], index[33], index[65], index[97]) = (1, 1, 7, 1);
    let block = 0x0403_0201;
    let read = Request::ReadIndexed { index, block };
    assert_eq!(added(read), [10, 1, 2, 3, 4]);
    index[127] = 0x0807_0605;
    let load = Request::LoadIndexed {
        index,
        signature: 0x650,
        platform: 2,
    };
    let changed = [9, 127, 5, 6, 7, 8, 11, 0x50, 6, 0, 0, 2, 0, 0, 0, 1];
    assert_eq!(added(load), changed);
    let after = Request::IndexAfter {
        old: index,
        emptied: 0x8000_0002,
        start: 0,
        revision: 8,
        size: 1,
    };
    let numbers = [8, 2, 0, 0, 0x80, 0, 0, 0, 0, 8, 0, 0, 0, 1, 0, 0, 0];
    assert_eq!(added(after), numbers);
    // The carried index is held now: P in block 0, and nothing else.
    let mut index = [0; 128];
    (index[0], index[64], index[96]) = (1, 8, 1);
    let read = Request::ReadIndexed { index, block };
    assert_eq!(added(read), [10, 1, 2, 3, 4]);
}

#[test]
fn the_published_files_are_those_that_are_written() {
    let directory = env::temp_dir().join(format!("vectors-{}", process::id()));
    let result = vectors::write_vectors(&directory);
    let written = ["stdin", "stdout"].map(|name| fs::read(directory.join(name)));
    fs::remove_dir_all(&directory).unwrap();
    assert_eq!(result, Ok(()));
    for (name, bytes) in ["stdin", "stdout"].into_iter().zip(written) {
        assert!(bytes.unwrap() == published(PROGRAM, name), "{name}");
    }
}

#[test]
fn the_published_answers_are_those_of_both_forms() {
    let stdin = published(PROGRAM, "stdin");
    let stdout = String::from_utf8(published(PROGRAM, "stdout")).unwrap();
    let model = replay(&stdin, model::answer);
    let plain = replay(&stdin, plain_answer);
    for (form, text) in [("the model", model), ("the plain form", plain)] {
        for (number, (line, right)) in text.lines().zip(stdout.lines()).enumerate() {
            assert_eq!(line, right, "call {number}, {form}");
        }
        assert!(text == stdout, "{form}");
    }
}
