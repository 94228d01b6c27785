//! The answers of a call, and whether there were enough of each: the same for calls on tables, readers and programs.

use super::at_least;
use crate::aiger::Refusal;
use crate::library::Told;
use crate::tally::Tally;
use std::collections::HashMap;

/// Cases that each refusal must have at least.
pub const PER_REFUSAL: u64 = 200;

/// What each refusal must have at least: cases, cases at each of its places if these are a few, and cases whose answer the
/// generator knew.
#[derive(Clone, Copy)]
pub struct Needed {
    pub per_refusal: u64,
    pub per_place: u64,
    pub foretold: u64,
}

pub const OF_CALLS: Needed = Needed {
    per_refusal: PER_REFUSAL,
    per_place: PER_REFUSAL,
    foretold: PER_REFUSAL,
};

#[derive(Default)]
pub struct Answered {
    pub cases: u64,
    accepted: u64,
    /// Accepted with A > 0.
    with_gates: u64,
    /// By number and place.
    refused: HashMap<(u64, u64), u64>,
    /// Those whose answer the generator knew, by number.
    foretold: HashMap<u64, u64>,
}

impl Answered {
    pub fn accept(&mut self, has_gates: bool) {
        self.cases += 1;
        self.accepted += 1;
        self.with_gates += u64::from(has_gates);
    }

    pub fn refuse(&mut self, refusal: &Refusal, is_foretold: bool) {
        self.cases += 1;
        *self.refused.entry((refusal.number, refusal.place)).or_default() += 1;
        *self.foretold.entry(refusal.number).or_default() += u64::from(is_foretold);
    }

    /// The refusals with a number, wherever they are.
    pub fn refused(&self, number: u64) -> u64 {
        let such = self.refused.iter().filter(|((other, _), _)| *other == number);
        such.map(|(_, count)| count).sum()
    }

    /// Prints the summary and counts what was missed.
    pub fn report(&self, tally: &mut Tally, name: &str, told: &[Told], needed: Needed) {
        self.report_accepted(tally, name);
        self.report_refused(tally, name, told, needed);
    }

    /// At least a quarter of the cases are accepted, and have gates.
    pub fn report_accepted(&self, tally: &mut Tally, name: &str) {
        println!(
            "{name}: {} cases, accepted {} ({} with A > 0)",
            self.cases, self.accepted, self.with_gates
        );
        tally.check(
            &format!("{name}, accepted with A > 0"),
            at_least(self.with_gates, self.cases.div_ceil(4)),
        );
    }

    pub fn report_refused(&self, tally: &mut Tally, name: &str, told: &[Told], needed: Needed) {
        for (number, places) in told {
            let all = self.refused(*number);
            let at = |place: u64| self.refused.get(&(*number, place)).copied().unwrap_or(0);
            let by_place: Vec<String> = places
                .iter()
                .map(|&place| format!(", at {place}: {}", at(place)))
                .collect();
            println!("{name}: refused by {number}: {all}{}", by_place.concat());
            let name = format!("{name}, refusal {number}");
            tally.check(&name, at_least(all, needed.per_refusal));
            for &place in *places {
                tally.check(&format!("{name} at {place}"), at_least(at(place), needed.per_place));
            }
            let foretold = self.foretold.get(number).copied().unwrap_or(0);
            tally.check(&format!("{name} foretold"), at_least(foretold, needed.foretold));
        }
    }
}
