//! What the accepted cases of the steppers and of the witness question in three values had.

use super::at_least;
use crate::aiger::{step, Circuit, Refusal};
use crate::compare::tables::{circuit, outcome};
use crate::library::{Call, Lent};
use crate::tally::Tally;

/// Each kind of case must have at least so many.
const PER_KIND: u64 = 100;

#[derive(Default)]
pub struct VectorCoverage {
    /// Without inputs, latches, outputs, vectors.
    without: [u64; 4],
    /// With a 0, 1, x among the outputs.
    outputs: [u64; 3],
    /// Refused by 12 at 1, 2, 3.
    places: [u64; 3],
    yes: u64,
    no: u64,
    /// Refused by 12 though the vectors before the wrong byte give a "1".
    too_late: u64,
    new: NewCoverage,
}

/// Cases whose answer would be another by the report of 2007.
#[derive(Default)]
struct NewCoverage {
    by_bad_states: u64,
    lost_to_constraints: u64,
    by_resets: u64,
    from_x: u64,
}

impl NewCoverage {
    fn add(&mut self, before: &Lent, yes: bool) {
        let circuit = circuit(before);
        let otherwise = |change: fn(&mut Circuit)| {
            let mut other = circuit.clone();
            change(&mut other);
            let vectors = list(before, &other);
            u64::from(step::witness(&other, vectors.into_iter()) != yes)
        };
        self.by_bad_states += otherwise(|circuit| circuit.bads.clear());
        self.lost_to_constraints += otherwise(|circuit| circuit.constraints.clear());
        self.by_resets += otherwise(|circuit| circuit.resets.fill(0));
        self.from_x += u64::from(step::start(&circuit).contains(&b'x'));
    }
}

/// The vectors of a witness question that is accepted.
pub fn list<'a>(lent: &'a Lent, circuit: &Circuit) -> Vec<&'a [u8]> {
    list_of(lent, 0, circuit)
}

/// The vectors in a byte buffer.
pub fn list_of<'a>(lent: &'a Lent, buffer: usize, circuit: &Circuit) -> Vec<&'a [u8]> {
    let (i, number) = (circuit.inputs.len(), lent.number() as usize);
    let bytes = lent.bytes[buffer].lent();
    (0..number).map(|k| &bytes[k * i..(k + 1) * i]).collect()
}

impl VectorCoverage {
    pub fn add(&mut self, call: Call, before: &Lent, after: &Lent) {
        match (call, outcome(after)) {
            (Call::Step | Call::StepPlain, Ok(())) => {
                let output = after.bytes[2].lent();
                for (count, value) in self.outputs.iter_mut().zip(b"01x") {
                    *count += u64::from(output.contains(value));
                }
            }
            (Call::Step | Call::StepPlain, Err(Refusal { number: 12, place })) => {
                self.places[place as usize - 1] += 1;
                return;
            }
            (Call::Witness3, Ok(())) => {
                let yes = after.answer.lent()[2];
                self.yes += yes;
                self.no += 1 - yes;
                self.new.add(before, yes == 1);
            }
            (Call::Witness3, Err(Refusal { number: 12, .. })) => {
                self.too_late += u64::from(seen(&circuit(before), before.bytes[0].lent()));
                return;
            }
            _ => return,
        }
        let [_, i, l, o, ..] = *before.counts.lent() else {
            unreachable!("seven counts");
        };
        let zeros = [i, l, o, before.numbers.first().copied().unwrap_or(1)].map(|count| u64::from(count == 0));
        self.without
            .iter_mut()
            .zip(zeros)
            .for_each(|(count, zero)| *count += zero);
    }

    pub fn report(&self, tally: &mut Tally, call: Call) {
        let [inputs, latches, outputs, vectors] = self.without;
        let mut kinds = vec![
            ("without inputs", inputs),
            ("without latches", latches),
            ("without outputs", outputs),
        ];
        if call == Call::Witness3 {
            kinds.extend([("without vectors", vectors), ("yes", self.yes), ("no", self.no)]);
            kinds.push(("a wrong byte after a 1", self.too_late));
            let new = &self.new;
            kinds.extend([
                ("other without bad states", new.by_bad_states),
                ("from an x", new.from_x),
            ]);
            kinds.push(("other without constraints", new.lost_to_constraints));
            kinds.push(("other from all 0", new.by_resets));
        } else {
            let [zero, one, x] = self.outputs;
            kinds.extend([("a 0 among the outputs", zero), ("a 1", one), ("an x", x)]);
            let [state, input, output] = self.places;
            kinds.extend([("12 at 1", state), ("12 at 2", input), ("12 at 3", output)]);
        }
        let told: Vec<String> = kinds.iter().map(|(kind, count)| format!("{kind}: {count}")).collect();
        println!("{}: {}", call.name(), told.join(", "));
        for (kind, count) in kinds {
            tally.check(&format!("{}, {kind}", call.name()), at_least(count, PER_KIND));
        }
    }
}

/// Whether the vectors before the first wrong byte are a witness.
pub fn seen(circuit: &Circuit, list: &[u8]) -> bool {
    let wrong = list.iter().position(|byte| !b"01x".contains(byte));
    let (Some(wrong), i @ 1..) = (wrong, circuit.inputs.len()) else {
        return false;
    };
    let good = list[..wrong].chunks_exact(i);
    step::witness(circuit, good)
}
