//! Rows: the inputs of each, and bytes for next states and outputs. 13, 12.

use super::turns::Beside;
use super::vectors::{spoil, tell, vectors};
use super::TablesCase;
use crate::aiger::rows::LANES;
use crate::aiger::{refuse, Circuit, Refusal};
use crate::generate::values::vector;
use crate::memory::Memory;
use crate::random::Random;

/// How many rows, often on the line of what there may be; or more.
fn number(random: &mut Random, circuit: &Circuit, beside: Beside) -> u64 {
    let some = random.below(LANES as usize + 1) as u64;
    let few = random.below(4) as u64;
    let wrapping = (1 << 32) + few;
    if beside.wants(random, 13) {
        let far = *random.pick(&[LANES + 2, 1 << 32, wrapping, 1 << 63, u64::MAX]);
        return *random.pick(&[LANES + 1, LANES + 1, far]);
    }
    match circuit.m {
        ..=1000 => *random.pick(&[0, 1, 2, LANES - 1, LANES, some, few]),
        _ => few.min(1),
    }
}

/// The lengths of so many rows; without end they would not be lent.
fn lengths(circuit: &Circuit, number: u64) -> [usize; 3] {
    let rows = if number > LANES + 2 { 2 } else { number as usize };
    let rows = if circuit.m > 1000 { rows.min(2) } else { rows };
    [circuit.latches.len(), circuit.inputs.len(), circuit.outputs.len()].map(|length| rows * length)
}

/// Their number is judged before their bytes.
fn few(number: u64) -> Result<(), Refusal> {
    if number > LANES {
        return refuse(13, LANES as usize);
    }
    Ok(())
}

pub fn add(random: &mut Random, circuit: &Circuit, beside: Beside, case: &mut TablesCase) {
    let number = number(random, circuit, beside);
    let unknown = random.below(4);
    let lengths = lengths(circuit, number);
    let (vectors, promise) = vectors(random, beside, unknown, lengths, [false, true, false]);
    let junk = random.word();
    let [next, input, output] = &vectors;
    case.lent.numbers = vec![number];
    case.lent.bytes = vec![
        Memory::junk(next.len() as u64, junk),
        Memory::around(input, junk),
        Memory::junk(output.len() as u64, junk),
    ];
    tell(case, few(number).and(promise));
}

/// The report is lent no bytes but the inputs, which are named by 2 all the same.
pub fn add_report(random: &mut Random, circuit: &Circuit, beside: Beside, case: &mut TablesCase) {
    let number = number(random, circuit, beside);
    let unknown = random.below(4);
    let [_, length, _] = lengths(circuit, number);
    let mut input = vector(random, unknown, length);
    let mut promise = few(number);
    if beside.wants(random, 12) {
        spoil(random, true, &mut input);
        promise = promise.and(refuse(12, 2));
    }
    case.lent.numbers = vec![number];
    case.lent.bytes = vec![Memory::around(&input, random.word())];
    tell(case, promise);
}
