//! Many rows at once: each is one input vector, stepped once from the first state.

use super::step::{self, Step};
use super::Circuit;

/// The most rows.
pub const LANES: u64 = 64;

/// Next states and outputs, row after row.
#[derive(Clone, Debug, PartialEq, Eq)]
pub struct Rows {
    pub nexts: Vec<u8>,
    pub outputs: Vec<u8>,
}

fn steps(circuit: &Circuit, inputs: &[&[u8]]) -> Vec<Step> {
    let start = step::start(circuit);
    inputs.iter().map(|input| step::step(circuit, &start, input)).collect()
}

pub fn rows(circuit: &Circuit, inputs: &[&[u8]]) -> Rows {
    let steps = steps(circuit, inputs);
    Rows {
        nexts: steps.iter().flat_map(|step| step.next.clone()).collect(),
        outputs: steps.iter().flat_map(|step| step.output.clone()).collect(),
    }
}

/// For each output the rows at 0, at 1 and at x.
pub fn report(circuit: &Circuit, inputs: &[&[u8]]) -> Vec<[u32; 3]> {
    let steps = steps(circuit, inputs);
    let at = |k: usize, value: u8| steps.iter().filter(|step| step.output[k] == value).count() as u32;
    let numbers = |k: usize| b"01x".map(|value| at(k, value));
    (0..circuit.outputs.len()).map(numbers).collect()
}
