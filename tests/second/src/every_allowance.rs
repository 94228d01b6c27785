//! Lists with 0 to 6 x, each asked with every allowance: from none to one more than there are fillings.

use crate::aiger::fillings::{unknown, values, UNDECIDED};
use crate::compare::tables::{after, circuit, compare, outcome};
use crate::coverage::at_least;
use crate::coverage::vectors::list;
use crate::ensure;
use crate::generate::given;
use crate::library::{Call, Lent, Library};
use crate::tally::Tally;

/// So many lists of each number of x.
const LISTS: u64 = 12;

/// Among so many cases of the call there must be enough.
const CASES: u64 = 6000;

pub fn run(tally: &mut Tally, seed: u64, library: Option<&dyn Library>) {
    let mut lists = [0; 7];
    for number in 0..CASES {
        if lists.iter().all(|&count| count == LISTS) {
            break;
        }
        let case = given::case(Call::Witness, seed, number);
        if case.promise != Some(Ok(())) || case.lent.counts.lent()[0] > 1000 {
            continue;
        }
        let x = unknown_of(&case.lent);
        if let Some(count) = lists.get_mut(x).filter(|count| **count < LISTS) {
            *count += 1;
            let name = format!("seed {seed} witness case {number} with every allowance");
            tally.check(&name, every(library, case.lent, 1 << x));
        }
    }
    for (x, count) in lists.into_iter().enumerate() {
        tally.check(&format!("lists with {x} x"), at_least(count, LISTS));
    }
}

fn unknown_of(lent: &Lent) -> usize {
    let circuit = circuit(lent);
    unknown(&values(&circuit, &list(lent, &circuit)))
}

/// A larger allowance never changes a yes or a no.
fn every(library: Option<&dyn Library>, mut lent: Lent, fillings: u64) -> Result<(), String> {
    let mut decided = None;
    for allowance in 0..=fillings + 1 {
        lent.numbers[1] = allowance;
        if let Some(library) = library {
            compare(library, Call::Witness, &lent)?;
        }
        let left = after(Call::Witness, &lent);
        ensure!(outcome(&left).is_ok(), "refused: {:?}", left.answer);
        let verdict = left.answer.lent()[2..].to_vec();
        let first = decided.get_or_insert_with(|| verdict.clone());
        if first[0] == UNDECIDED {
            *first = verdict;
        } else {
            ensure!(*first == verdict, "{first:?} becomes {verdict:?} with {allowance}");
        }
    }
    ensure!(
        decided.is_some_and(|last| last[0] != UNDECIDED),
        "undecided with an allowance for all"
    );
    Ok(())
}
