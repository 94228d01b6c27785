//! A state, inputs and an output to be explained, and a buffer for the marks: 12, 17, 11.

use super::turns::Beside;
use super::vectors::{tell, vectors};
use super::writing::room;
use super::TablesCase;
use crate::aiger::{refuse, step, Circuit};
use crate::memory::Memory;
use crate::random::Random;

/// None if no output is such as it is to be.
pub fn add(random: &mut Random, circuit: &Circuit, beside: Beside, case: &mut TablesCase) -> Option<()> {
    let lengths = [circuit.latches.len(), circuit.inputs.len()];
    let unknown = *random.pick(&[0, 0, 0, 1, 2]);
    let (vectors, promise) = vectors(random, beside, unknown, lengths, [true, true]);
    let [state, input] = &vectors;
    let way = beside.way(random, 17, &[1, 2]);
    let number = match (way, promise, case.promise) {
        (Some(1), ..) => absent(random, circuit.outputs.len()),
        (_, Ok(()), Some(Ok(()))) => some_output(random, circuit, &vectors, way == Some(2))?,
        // What comes before it is wrong, and any number will do.
        _ => random.below(circuit.outputs.len() + 1) as u64,
    };
    let told = way.map_or(Ok(()), |place| refuse(17, place as usize));
    let needed = lengths.iter().sum();
    let short = needed > 0 && beside.wants(random, 11);
    let room = room(random, short, needed);
    let fits = if short { refuse(11, needed) } else { Ok(()) };
    let junk = random.word();
    case.lent.numbers = vec![number];
    case.lent.bytes = vec![
        Memory::around(state, junk),
        Memory::around(input, junk),
        Memory::junk(room as u64, junk),
    ];
    tell(case, promise.and(told).and(fits));
    Some(())
}

/// The number of an output that is not there.
fn absent(random: &mut Random, outputs: usize) -> u64 {
    let o = outputs as u64;
    let wrapping = (1 << 32) + random.below(outputs + 1) as u64;
    *random.pick(&[o, o, o + 1, wrapping, wrapping, 1 << 63, u64::MAX])
}

/// The number of an output that is x, or of one that is not.
fn some_output(random: &mut Random, circuit: &Circuit, [state, input]: &[Vec<u8>; 2], is_x: bool) -> Option<u64> {
    let output = step::step(circuit, state, input).output;
    let such: Vec<usize> = (0..output.len()).filter(|&k| (output[k] == b'x') == is_x).collect();
    (!such.is_empty()).then(|| *random.pick(&such) as u64)
}
