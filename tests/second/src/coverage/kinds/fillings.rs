//! Of the witness question.

use super::{Kind, Seen};
use crate::aiger::fillings::{self, Verdict, MOST_X, NO, UNDECIDED, YES};
use crate::aiger::{step, Circuit};
use crate::coverage::vectors::list;

pub const KINDS: &[Kind] = &[
    ("without inputs", |seen| seen.accepted(|c| c.inputs.is_empty())),
    ("without vectors", |seen| seen.accepted(|_| seen.number() == 0)),
    ("yes", |seen| says(seen, YES)),
    ("no", |seen| says(seen, NO)),
    ("undecided", |seen| says(seen, UNDECIDED)),
    ("no x", |seen| seen.accepted(|c| unknown(seen, c) == 0)),
    ("1 x", |seen| seen.accepted(|c| unknown(seen, c) == 1)),
    ("2 x", |seen| seen.accepted(|c| unknown(seen, c) == 2)),
    ("3 x", |seen| seen.accepted(|c| unknown(seen, c) == 3)),
    ("4 x", |seen| seen.accepted(|c| unknown(seen, c) == 4)),
    ("5 x", |seen| seen.accepted(|c| unknown(seen, c) == 5)),
    ("6 x", |seen| seen.accepted(|c| unknown(seen, c) == 6)),
    ("20 x", |seen| seen.accepted(|c| unknown(seen, c) == MOST_X)),
    ("21 x", |seen| seen.refused(20, MOST_X as u64 + 1)),
    ("x in the first state", |seen| {
        seen.accepted(|c| step::start(c).contains(&b'x'))
    }),
    ("no after the first filling", |seen| {
        says(seen, NO) && verdict(seen).tried > 1
    }),
    ("yes, three values say no", |seen| {
        says(seen, YES) && seen.accepted(|c| !step::witness(c, list(seen.before, c).into_iter()))
    }),
    ("another verdict without constraints", |seen| {
        otherwise(seen, |c| c.constraints.clear())
    }),
    ("another verdict without bad states", |seen| {
        otherwise(seen, |c| c.bads.clear())
    }),
    ("another verdict from all 0", |seen| {
        otherwise(seen, |c| c.resets.fill(0))
    }),
    ("allowance 0", |seen| seen.accepted(|_| allowance(seen) == 0)),
    ("an allowance just for a yes", |seen| {
        says(seen, YES) && allowance(seen) == verdict(seen).tried && verdict(seen).tried > 1
    }),
    ("one less than for a yes", |seen| {
        says(seen, UNDECIDED) && seen.accepted(|c| allowance(seen) + 1 == 1 << unknown(seen, c) && allowance(seen) > 0)
    }),
    ("an allowance just for a no", |seen| {
        says(seen, NO) && allowance(seen) == verdict(seen).tried && verdict(seen).tried > 1
    }),
    ("one less than for a no", |seen| {
        let more = |c: &Circuit| fillings::witness(c, &list(seen.before, c), allowance(seen) + 1);
        says(seen, UNDECIDED) && allowance(seen) > 0 && seen.accepted(|c| more(c).says == NO)
    }),
    ("20 with allowance 0", |seen| {
        seen.outcome.as_ref().is_err_and(|refusal| refusal.number == 20) && allowance(seen) == 0
    }),
];

fn unknown(seen: &Seen, circuit: &Circuit) -> usize {
    fillings::unknown(&fillings::values(circuit, &list(seen.before, circuit)))
}

fn allowance(seen: &Seen) -> u64 {
    seen.before.numbers[1]
}

fn verdict(seen: &Seen) -> Verdict {
    let answer = seen.after.answer.lent();
    Verdict {
        says: answer[2],
        tried: answer[3],
    }
}

fn says(seen: &Seen, says: u64) -> bool {
    seen.outcome.is_ok() && verdict(seen).says == says
}

/// Whether it says something else of another circuit.
fn otherwise(seen: &Seen, change: fn(&mut Circuit)) -> bool {
    let differs = |circuit: &Circuit| {
        let mut other = circuit.clone();
        change(&mut other);
        fillings::witness(&other, &list(seen.before, &other), allowance(seen).min(100)).says != verdict(seen).says
    };
    !says(seen, UNDECIDED) && seen.accepted(differs)
}
