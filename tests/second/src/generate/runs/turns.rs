//! Which runs a program has: they take turns, so that each refusal comes equally often.

use super::Run;
use crate::aiger::programs::Program;
use crate::library::Told;

/// What is to come of a run.
#[derive(Clone, Copy, PartialEq, Eq)]
pub enum Turn {
    Accepted,
    /// A refusal of `plan.in`, and its place if it has a few.
    Plan(u64, u64),
    /// A refusal of standard input.
    Input(u64),
    Any,
}

/// So many turns of a round each refusal has, at all of its places; those that the programs share fewer of each program.
const TURNS: usize = 8;
const SHARED: usize = 2;

/// The turns of a program, one after another: somewhat less than a third is accepted.
pub fn round(program: Program) -> Vec<Turn> {
    let mut round = Vec::new();
    for (number, places) in program.told_of_files() {
        round.extend(ways(*number, places).take(SHARED.max(places.len())));
    }
    for (number, places) in program.told_of_plan() {
        round.extend(ways(*number, places).take(TURNS));
    }
    for &(number, _) in program.told_of_input() {
        // The others are told of plans too.
        let turns = if number == 12 { TURNS } else { TURNS / 2 };
        round.extend(vec![Turn::Input(number); turns]);
    }
    let refused = round.len();
    round.extend(vec![Turn::Accepted; refused * 9 / 20]);
    round.extend(vec![Turn::Any; refused / 30]);
    round
}

/// One place after another, again and again.
fn ways(number: u64, places: &'static [u64]) -> impl Iterator<Item = Turn> {
    let places = if places.is_empty() { &[0] } else { places };
    places.iter().cycle().map(move |&place| Turn::Plan(number, place))
}

impl Turn {
    /// The refusal of `plan.in` that is to come, if any.
    pub fn number(self) -> Option<u64> {
        match self {
            Turn::Plan(number, _) => Some(number),
            _ => None,
        }
    }

    pub fn is_met(self, run: &Run) -> bool {
        let told = run.answer.as_ref().err();
        match self {
            Turn::Any => true,
            Turn::Accepted => told.is_none(),
            Turn::Input(number) => run.circuit.is_some() && told.is_some_and(|told| told.number == number),
            Turn::Plan(number, place) => {
                let placed = |told: &Told| told.0 == number && !told.1.is_empty();
                let told_of = [run.program.told_of_files(), run.program.told_of_plan()];
                let placed = told_of.into_iter().flatten().any(placed);
                let met = told.is_some_and(|told| told.number == number && (!placed || told.place == place));
                // These come after the plan is read.
                met && (run.circuit.is_none() || matches!(number, 11 | 15 | 19))
            }
        }
    }
}
