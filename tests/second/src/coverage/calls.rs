//! The answers of one call on tables.

use super::answered::{Answered, OF_CALLS};
use super::at_least;
use super::kinds::KindCoverage;
use super::vectors::VectorCoverage;
use crate::compare::tables::outcome;
use crate::generate::given::TablesCase;
use crate::library::{Call, Lent, Told};
use crate::tally::Tally;

pub struct CallCoverage {
    call: Call,
    answered: Answered,
    /// Accepted by conversion, reduction or dropping, and the gates became others.
    changed: u64,
    vectors: VectorCoverage,
    kinds: KindCoverage,
}

impl CallCoverage {
    pub fn new(call: Call) -> CallCoverage {
        CallCoverage {
            call,
            answered: Answered::default(),
            changed: 0,
            vectors: VectorCoverage::default(),
            kinds: KindCoverage::new(call),
        }
    }

    pub fn add(&mut self, case: &TablesCase, after: &Lent) {
        let gates = case.lent.counts.lent()[4];
        match outcome(after) {
            Ok(()) => self.answered.accept(gates > 0),
            Err(refusal) => self.answered.refuse(&refusal, case.promise.is_some()),
        }
        self.vectors.add(self.call, &case.lent, after);
        self.kinds.add(&case.lent, after);
        if let (Ok(()), Some(written)) = (outcome(after), after.written.get(3)) {
            let given = case.lent.tables[3].lent().iter();
            let kept = 3 * gates as usize;
            self.changed += u64::from(!given.take(kept).eq(written.lent().iter().take(kept)));
        }
    }

    /// Prints the summary and counts what was missed.
    pub fn report(&self, tally: &mut Tally) {
        let name = self.call.name();
        let told: Vec<Told> = [self.call.told_of_tables().as_slice(), self.call.told_beside()].concat();
        self.answered.report(tally, name, &told, OF_CALLS);
        self.kinds.report(tally, name);
        if self.call.writes_tables() {
            println!("{name}: the gates became others in {}", self.changed);
            let needed = self.answered.cases / 10;
            tally.check(&format!("{name}, changes"), at_least(self.changed, needed));
        }
        if self.call.takes_vectors() {
            self.vectors.report(tally, self.call);
        }
    }
}
