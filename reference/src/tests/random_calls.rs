//! Tests of the random calls: what they reach, and how much they lend.

use crate::calls::{Answer, Call, Request, BLOCK, CANDIDATE_ROOM, DESTINATION_ROOM, STORE_ROOM};
use crate::generate::{Generator, Style};
use crate::index::{built, Index};
use crate::model;
use crate::store::Store;
use crate::tally::Tally;
use crate::update::{number, Update};
use crate::write::ALL_SETS;
use std::collections::BTreeMap;

const CALLS: usize = 20_000;

/// How often each answer has to come up in so many calls.
const OFTEN: u64 = 10;

/// Every answer that there is: the call, AX, and the case in word 4.
const ANSWERS: [(&str, u32, u32); 37] = [
    ("unknown function", 0x8600, 4),
    ("unknown sub-function", 0x8600, 4),
    ("presence", 0x0000, 0),
    ("presence", 0x9201, 4),
    ("write", 0x0000, 1),
    ("write", 0x9201, 4),
    ("write", 0x9202, 4),
    ("write", 0x9304, 4),
    ("write", 0x9305, 4),
    ("write", 0x9400, 4),
    ("write", 0x9500, 4),
    ("write", 0x9600, 4),
    ("write", 0x9700, 4),
    ("write", 0x9800, 4),
    ("control", 0x0000, 2),
    ("control", 0x8600, 4),
    ("read", 0x0000, 3),
    ("read", 0x9201, 4),
    ("read", 0x9203, 4),
    ("read", 0x9900, 4),
    ("read", 0x9A00, 4),
    ("load", 0x0000, 0),
    ("load", 0x0000, 1),
    ("load", 0x9201, 2),
    ("load", 0x9202, 2),
    ("index", 0x0000, 0),
    ("index", 0x9201, 1),
    ("index after", 0x0000, 0),
    ("read indexed", 0x0000, 3),
    ("read indexed", 0x9201, 4),
    ("read indexed", 0x9203, 4),
    ("read indexed", 0x9900, 4),
    ("read indexed", 0x9A00, 4),
    ("load indexed", 0x0000, 0),
    ("load indexed", 0x0000, 1),
    ("load indexed", 0x9201, 2),
    ("load indexed", 0x9202, 2),
];

/// The call's name, by its numbers.
fn name(call: &Call) -> &'static str {
    match call.request {
        Request::Load { .. } => "load",
        Request::Index => "index",
        Request::IndexAfter { .. } => "index after",
        Request::ReadIndexed { .. } => "read indexed",
        Request::LoadIndexed { .. } => "load indexed",
        Request::Update {
            function,
            sub_function,
            ..
        } => match (function, sub_function) {
            (0xD042, 0) => "presence",
            (0xD042, 1) => "write",
            (0xD042, 2) => "control",
            (0xD042, 3) => "read",
            (0xD042, _) => "unknown sub-function",
            _ => "unknown function",
        },
    }
}

/// Draws many calls, and shows each with its answer.
fn each_call(style: Style, seed: u64, mut show: impl FnMut(&Call, &Answer)) {
    let mut generator = Generator::new(seed, style);
    for _ in 0..CALLS {
        let call = generator.draw();
        let answer = model::answer(call);
        show(call, &answer);
        generator.answered(answer);
    }
}

#[test]
fn every_answer_is_reached_often_and_no_other() {
    for (style, seed) in [(Style::Wide, 1), (Style::Compact, 2)] {
        let mut counts = BTreeMap::from(ANSWERS.map(|answer| (answer, 0)));
        let mut tally = Tally::default();
        each_call(style, seed, |call, answer| {
            let line = (name(call), answer.ax, answer.words[4]);
            *counts.get_mut(&line).expect("a known answer") += 1;
            tally.add(call, answer);
        });
        for (line, count) in &counts {
            assert!(*count >= OFTEN, "{line:X?}: {count}");
        }
        let rare = tally.rarer_than(OFTEN);
        assert!(rare.is_empty(), "{rare:X?}");
        // A code that no call gave counts as rare.
        assert!(Tally::default().rarer_than(1).len() >= ANSWERS.len());
    }
}

#[test]
fn most_writes_pass_the_checks_up_to_the_revision() {
    for (style, seed) in [(Style::Wide, 1), (Style::Compact, 2)] {
        let mut all = 0;
        let mut past = 0;
        let mut tally = Tally::default();
        each_call(style, seed, |call, answer| {
            if name(call) == "write" {
                all += 1;
                past += u64::from([0, 0x9304, 0x9305, 0x9700].contains(&answer.ax));
            }
            tally.add(call, answer);
        });
        assert_eq!(tally.past_revision(), (past, all));
        assert!(2 * past > all, "{past} of {all}");
    }
}

#[test]
fn accepted_writes_are_of_every_kind() {
    for (style, seed) in [(Style::Wide, 1), (Style::Compact, 2)] {
        let mut emptied = [0; 4];
        let mut starts = [0; 2];
        let mut crowded = 0;
        let mut wide = 0;
        each_call(style, seed, |call, answer| {
            if name(call) != "write" || answer.ax != 0 {
                return;
            }
            emptied[answer.words[6].min(3) as usize] += 1;
            starts[usize::from(answer.words[5] > 0)] += 1;
            let before = Store::parse(&call.store).unwrap();
            crowded += usize::from(before.held.len() > ALL_SETS);
            let after = Store::parse(&answer.store).unwrap();
            let start = answer.words[5] as usize;
            let held = after.held.iter().find(|held| held.first == start);
            wide += usize::from(held.unwrap().blocks > 8);
        });
        let told = format!("{emptied:?} {starts:?} {crowded} {wide}");
        let kinds = emptied.iter().chain(&starts).chain([&crowded, &wide]);
        assert!(kinds.into_iter().all(|count| *count >= 50), "{told}");
    }
}

/// What is off the kilobyte about a call, with a table unless it is told.
fn off_kilobyte(call: &Call, answer: &Answer) -> Vec<&'static str> {
    let mut kinds = Vec::new();
    let off = |total: u64| !total.is_multiple_of(1024);
    if let Some(store) = Store::parse(&call.store) {
        if store.held.iter().any(|held| off(held.update.sizes.total)) {
            kinds.push("stored");
        }
    } else {
        kinds.extend(late_rest(&call.store));
    }
    if name(call) == "write" && call.candidate.len() >= 48 {
        let field = |at| u64::from(number(&call.candidate, at));
        let (data, total) = (field(28), field(32));
        let table = total.wrapping_sub(48 + data);
        kinds.extend(match (answer.ax, data % 4) {
            (0, _) if data != 0 && off(total) => Some("accepted"),
            (0x9500, 0) if off(total) && table == 0 => Some("no table"),
            (0x9500, 1..) if off(total) && table % 12 == 8 => Some("no multiple of 4"),
            (0x9500, 0) if total == 32_772 && table % 12 == 8 => Some("too long"),
            _ => None,
        });
    }
    kinds
}

/// Whether a bad store is good but for the first byte of a rest off the kilobyte.
fn late_rest(store: &[u8]) -> Option<&'static str> {
    for start in (0..store.len()).step_by(BLOCK) {
        let Ok(update) = Update::parse(&store[start..]) else {
            continue;
        };
        let rest = start + update.sizes.total as usize;
        let late = store.get(rest).is_some_and(|&byte| byte != 0xFF);
        if late && !rest.is_multiple_of(1024) {
            let mut mended = store.to_vec();
            mended[rest] = 0xFF;
            if Store::parse(&mended).is_some() {
                return Some("late rest");
            }
        }
    }
    None
}

#[test]
fn updates_off_the_kilobyte_are_drawn() {
    let kinds = [
        "stored",
        "late rest",
        "accepted",
        "no table",
        "no multiple of 4",
        "too long",
    ];
    for (style, seed) in [(Style::Wide, 1), (Style::Compact, 2)] {
        let mut counts = BTreeMap::from(kinds.map(|kind| (kind, 0)));
        each_call(style, seed, |call, answer| {
            for kind in off_kilobyte(call, answer) {
                *counts.get_mut(kind).expect("a known kind") += 1;
            }
        });
        assert!(counts.values().all(|count| *count >= OFTEN), "{counts:?}");
    }
}

#[test]
fn no_call_lends_more_than_there_is_room() {
    for (style, seed) in [(Style::Wide, 1), (Style::Compact, 2)] {
        let mut most = [0; 5];
        each_call(style, seed, |call, _| {
            let lengths = [
                call.store.len(),
                call.candidate.len(),
                call.destination.len(),
                call.signatures.len(),
                call.platforms.len(),
            ];
            for (most, length) in most.iter_mut().zip(lengths) {
                *most = length.max(*most);
            }
        });
        let rooms = [STORE_ROOM, CANDIDATE_ROOM, DESTINATION_ROOM, 16, 16];
        assert!(
            most.iter().zip(rooms).all(|(most, room)| *most <= room),
            "{most:?}"
        );
    }
}

/// How an index differs from the store's own.
fn kinds_of(call: &Call, index: &Index) -> Vec<&'static str> {
    let Some(store) = Store::parse(&call.store) else {
        let zeros = index.iter().all(|&number| number == 0);
        return vec![if zeros { "bad, zeros" } else { "bad, others" }];
    };
    let own = built(&store);
    let wrong: Vec<usize> = (0..128).filter(|&at| index[at] != own[at]).collect();
    let mut kinds = vec![match wrong[..] {
        [] => "own",
        [at] => ["kind", "start", "revision", "size"][at / 32],
        _ => "several",
    }];
    if !wrong.is_empty() && wrong.iter().all(|at| at % 32 >= store.blocks) {
        kinds.push("behind N only");
    }
    if index[..32].iter().any(|&kind| kind > 2) {
        kinds.push("no kind");
    }
    kinds
}

#[test]
fn indexes_of_every_kind_are_drawn() {
    for (style, seed) in [(Style::Wide, 1), (Style::Compact, 2)] {
        let mut counts: BTreeMap<&str, u64> = BTreeMap::new();
        each_call(style, seed, |call, _| {
            if let Request::ReadIndexed { index, .. } | Request::LoadIndexed { index, .. } =
                &call.request
            {
                for kind in kinds_of(call, index) {
                    *counts.entry(kind).or_default() += 1;
                }
            }
        });
        let single = ["kind", "start", "revision", "size"];
        let others = ["own", "several", "behind N only", "no kind"];
        let bad = ["bad, zeros", "bad, others"];
        for kind in single.iter().chain(&others).chain(&bad) {
            assert!(counts.get(kind) >= Some(&OFTEN), "{kind}: {counts:?}");
        }
    }
}
