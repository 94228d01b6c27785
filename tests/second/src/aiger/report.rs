//! The needle report: how often each output and each latch was 0, 1 or x, and how often it became another.

use super::{step, Circuit};

/// The most vectors of a list.
pub const MOST_STEPS: u64 = 65_536;

/// Steps at 0, at 1, at x, and steps whose value differs from the step before.
pub type Numbers = [u32; 4];

/// The numbers of each output, then of each latch, which counts by its state at the start of a step.
pub fn report<'a>(circuit: &'a Circuit, inputs: impl Iterator<Item = &'a [u8]> + 'a) -> Vec<Numbers> {
    let steps = step::run(circuit, inputs).map(|(state, step)| [step.output, state].concat());
    let steps: Vec<Vec<u8>> = steps.collect();
    let places = circuit.outputs.len() + circuit.latches.len();
    let values = |place: usize| steps.iter().map(|values| values[place]).collect();
    (0..places).map(|place| numbers(values(place))).collect()
}

/// Of one output's or latch's values, step by step.
fn numbers(values: Vec<u8>) -> Numbers {
    let at = |wanted: u8| values.iter().filter(|&&value| value == wanted).count() as u32;
    let changes = values.windows(2).filter(|pair| pair[0] != pair[1]).count() as u32;
    [at(b'0'), at(b'1'), at(b'x'), changes]
}

/// A line for each output, then for each latch, as a program writes them.
pub fn lines(circuit: &Circuit, report: &[Numbers]) -> Vec<u8> {
    let outputs = (0..circuit.outputs.len()).map(|k| format!("o{k}"));
    let latches = (0..circuit.latches.len()).map(|k| format!("l{k}"));
    let line = |(name, [zero, one, x, changes]): (String, &Numbers)| format!("{name} {zero} {one} {x} {changes}\n");
    let lines: String = outputs.chain(latches).zip(report).map(line).collect();
    lines.into_bytes()
}
