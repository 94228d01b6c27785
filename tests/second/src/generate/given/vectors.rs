//! The vectors of the stepper and the lists of the witness question in three values and of a report: 24, 13, 12.

use super::turns::Beside;
use super::TablesCase;
use crate::aiger::plain::MOST_GATES;
use crate::aiger::report::MOST_STEPS;
use crate::aiger::{refuse, Circuit, Refusal};
use crate::generate::values::{no_value, vector};
use crate::memory::Memory;
use crate::random::Random;

/// A wrong length or, in a vector that is read, a byte that is no value.
pub fn spoil(random: &mut Random, is_read: bool, vector: &mut Vec<u8>) {
    match random.below(5) {
        0 if !vector.is_empty() => drop(vector.pop()),
        1 if !vector.is_empty() => vector.clear(),
        2 => vector.extend([b'0'; 5]),
        3 if !vector.is_empty() && is_read => {
            let at = random.below(vector.len());
            vector[at] = no_value(random);
        }
        _ => vector.push(*random.pick(b"01x")),
    }
}

/// Vectors of these lengths, of which one or two may be spoiled, and what is told of them: the least that is wrong. What
/// those hold that are not read is not looked at.
pub fn vectors<const N: usize>(
    random: &mut Random,
    beside: Beside,
    unknown: usize,
    lengths: [usize; N],
    are_read: [bool; N],
) -> ([Vec<u8>; N], Result<(), Refusal>) {
    let mut vectors = lengths.map(|length| vector(random, unknown, length));
    let places: Vec<u64> = (1..=N as u64).collect();
    let Some(least) = beside.way(random, 12, &places) else {
        return (vectors, Ok(()));
    };
    let first = least as usize - 1;
    let last = random.between(first, N - 1);
    for k in [first, last] {
        vectors[k] = vector(random, unknown, lengths[k]);
        spoil(random, are_read[k], &mut vectors[k]);
    }
    (vectors, refuse(12, first + 1))
}

/// State, inputs and outputs of a step.
pub fn step(random: &mut Random, circuit: &Circuit, beside: Beside, case: &mut TablesCase) {
    let promise = stepped(random, circuit, beside, case);
    tell(case, promise);
}

/// The same for the plain engine, which counts the gates before it looks at vectors.
pub fn step_plain(random: &mut Random, circuit: &Circuit, beside: Beside, case: &mut TablesCase) {
    let gates = circuit.gates.len();
    let few = if gates as u64 > MOST_GATES {
        refuse(24, gates)
    } else {
        Ok(())
    };
    let promise = stepped(random, circuit, beside, case);
    tell(case, few.and(promise));
}

fn stepped(random: &mut Random, circuit: &Circuit, beside: Beside, case: &mut TablesCase) -> Result<(), Refusal> {
    let lengths = [circuit.latches.len(), circuit.inputs.len(), circuit.outputs.len()];
    let unknown = random.below(4);
    let (vectors, promise) = vectors(random, beside, unknown, lengths, [true, true, false]);
    let junk = random.word();
    let [state, input, output] = &vectors;
    case.lent.bytes = vec![
        Memory::around(state, junk),
        Memory::around(input, junk),
        Memory::junk(output.len() as u64, junk),
    ];
    promise
}

/// A number of vectors and their bytes, and what is told of these.
struct List {
    number: u64,
    bytes: Vec<u8>,
    promise: Result<(), Refusal>,
}

impl List {
    fn new(random: &mut Random, circuit: &Circuit, beside: Beside) -> List {
        let i = circuit.inputs.len();
        let most = if i > 1000 { 2 } else { 8 };
        let mut number = random.below(most + 1) as u64;
        let unknown = random.below(4);
        let mut bytes = vector(random, unknown, number as usize * i);
        let wrong = beside.wants(random, 12) && wrong(random, i as u64, &mut number, &mut bytes);
        let promise = if wrong { refuse(12, 2) } else { Ok(()) };
        List { number, bytes, promise }
    }

    fn add(self, random: &mut Random, case: &mut TablesCase) {
        case.lent.numbers = vec![self.number];
        case.lent.bytes = vec![Memory::around(&self.bytes, random.word())];
        tell(case, self.promise);
    }
}

pub fn witness(random: &mut Random, circuit: &Circuit, beside: Beside, case: &mut TablesCase) {
    let mut list = List::new(random, circuit, beside);
    if case.promise != Some(Ok(())) {
        // If the tables hold a circuit without inputs, it is stepped so often.
        list.number = list.number.min(1000);
    }
    list.add(random, case);
}

/// Sometimes of as many vectors as there may be, or more.
pub fn report(random: &mut Random, circuit: &Circuit, beside: Beside, case: &mut TablesCase) {
    let mut list = List::new(random, circuit, beside);
    let most = MOST_STEPS;
    let whole = list.promise.is_ok() && case.promise == Some(Ok(()));
    if beside.wants(random, 13) {
        // 12 comes after, so the list is left as it is.
        let far = *random.pick(&[most + 2, 1 << 32, (1 << 32) + list.number, 1 << 63, u64::MAX]);
        list.number = *random.pick(&[most + 1, most + 1, far]);
    } else if whole && circuit.m <= SMALL && random.once_in(50) {
        list.number = *random.pick(&[most - 1, most, most]);
        list.bytes = vector(random, 1, list.number as usize * circuit.inputs.len());
    }
    if list.number > most {
        list.promise = refuse(13, most as usize);
    }
    list.add(random, case);
}

/// A circuit of so many variables is stepped quickly.
const SMALL: u64 = 12;

/// Makes a list wrong; false if it can't be made so in the chosen way.
pub fn wrong(random: &mut Random, i: u64, number: &mut u64, list: &mut Vec<u8>) -> bool {
    match random.below(8) {
        0 => list.push(*random.pick(b"01x")),
        1 => return list.pop().is_some(),
        2 if i > 0 => *number += 1,
        3 if i > 0 => *number = wrapping(random, i, *number, list),
        // Mostly in the last vector, when a "1" may have been seen.
        _ if !list.is_empty() => {
            let last = list.len() - 1;
            let first = if random.once_in(3) { 0 } else { last - last % i as usize };
            let at = random.between(first.min(last), last);
            list[at] = no_value(random);
        }
        _ => return false,
    }
    true
}

/// A number of vectors whose product with I is the list's length only in 64-bit or 32-bit words.
fn wrapping(random: &mut Random, i: u64, number: u64, list: &mut Vec<u8>) -> u64 {
    if random.once_in(3) {
        return number + (1 << 32);
    }
    if i.is_multiple_of(2) {
        return number + (1 << (64 - i.trailing_zeros()));
    }
    // An odd I divides every length in 64-bit words; the length is no true multiple, or I is 1.
    list.push(b'0');
    if i == 1 {
        return number + (1 << 32) + 1;
    }
    let mut inverse = 1u64;
    for _ in 0..6 {
        inverse = inverse.wrapping_mul(2u64.wrapping_sub(i.wrapping_mul(inverse)));
    }
    inverse.wrapping_mul(list.len() as u64)
}

/// Tables are judged before vectors.
pub fn tell(case: &mut TablesCase, promise: Result<(), Refusal>) {
    if case.promise == Some(Ok(())) {
        case.promise = Some(promise);
    }
}
