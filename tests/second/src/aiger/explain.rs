//! Why an output is what it is: the inputs and latches to which a walk from it leads.

use super::step::{value, values};
use super::{meaning, variable, Circuit};

/// A byte for each latch, then for each input: "1" if it is marked. None if the output is x.
pub fn explain(circuit: &Circuit, state: &[u8], input: &[u8], output: u32) -> Option<Vec<u8>> {
    let values = values(circuit, state, input);
    if value(&values, output) == b'x' {
        return None;
    }
    let mut walk = Walk {
        circuit,
        gate_of: meaning::gate_of(circuit),
        values,
        blamed: vec![false; circuit.m as usize + 1],
    };
    walk.blame(variable(output));
    let latches = circuit.latches.iter().map(|latch| latch[0]);
    let sources = latches.chain(circuit.inputs.iter().copied());
    let mark = |source: u32| if walk.blamed[variable(source)] { b'1' } else { b'0' };
    Some(sources.map(mark).collect())
}

struct Walk<'a> {
    circuit: &'a Circuit,
    gate_of: Vec<Option<usize>>,
    values: Vec<u8>,
    blamed: Vec<bool>,
}

impl Walk<'_> {
    /// A gate at 1 blames both sides, a gate at 0 the first right side that is 0.
    fn blame(&mut self, v: usize) {
        if std::mem::replace(&mut self.blamed[v], true) {
            return;
        }
        let Some(gate) = self.gate_of[v] else {
            return;
        };
        let [_, rhs0, rhs1] = self.circuit.gates[gate];
        if self.values[v] == b'1' {
            self.blame(variable(rhs0));
            self.blame(variable(rhs1));
        } else if value(&self.values, rhs0) == b'0' {
            self.blame(variable(rhs0));
        } else {
            self.blame(variable(rhs1));
        }
    }
}
