//! Compares the library with the model on random calls: the result, every answer word,
//! every byte and word lent, and guards around all that is lent; and after an accepted
//! write the index carried over it.

mod carried;
mod lent;
mod loan;

use crate::calls::Call;
use crate::generate::{Generator, Style};
use crate::model;
use crate::random::Random;
use crate::store::Store;
use crate::tally::Tally;
use crate::update::number;
use loan::Loan;

/// How many differences are told in words.
const TOLD: u64 = 10;

/// A call's inputs in a few lines.
fn summary(call: &Call) -> String {
    let mut text = format!("  {:X?}, loading {}\n", call.request, call.loading);
    text += &format!("  store of {} bytes", call.store.len());
    match Store::parse(&call.store) {
        None => text += ", bad",
        Some(store) => {
            for held in &store.held {
                text += &format!(
                    "; block {} takes {}, revision {:X}, {:X?}",
                    held.first, held.blocks, held.update.revision, held.update.covered
                );
            }
        }
    }
    text += &format!(
        "\n  listed {:X?} with platforms {:?}\n  candidate of {} bytes",
        call.signatures,
        call.platforms,
        call.candidate.len()
    );
    if call.candidate.len() >= 48 {
        let field = |at| number(&call.candidate, at);
        text += &format!(
            ": version {:X}, revision {:X}, signature {:X}, loader {:X}, flags {:X}, D {}, T {}",
            field(0),
            field(4),
            field(12),
            field(20),
            field(24),
            field(28),
            field(32)
        );
    }
    text + &format!("\n  destination of {} bytes", call.destination.len())
}

/// Runs the calls, and returns how many of them differ.
pub fn differ(calls: u64, seed: u64) -> u64 {
    let mut generator = Generator::new(seed, Style::Wide);
    let mut random = Random::new(seed ^ 0x5EED);
    let mut loan = Loan::new();
    let mut tally = Tally::default();
    let mut differing = 0;
    for number in 0..calls {
        let call = generator.draw();
        let right = model::answer(call);
        loan.set(call, &mut random);
        let ax = loan.run(call);
        let mut differences = loan.differences(call, ax, &right);
        if right.store != call.store {
            let (words, store) = loan.written();
            differences.extend(carried::differences(call, &right, words, store));
        }
        if !differences.is_empty() {
            differing += 1;
            if differing <= TOLD {
                println!("call {number}, {}:", call.request.name());
                for difference in differences {
                    println!("  {difference}");
                }
                println!("{}", summary(call));
            }
        }
        tally.add(call, &right);
        generator.answered(right);
    }
    print!("{tally}");
    println!("{calls} calls, {differing} differences");
    differing
}
