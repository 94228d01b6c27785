//! Lists of the witness question with a few x, and how many fillings may be tried: 12, 20.

use super::turns::{Beside, TOO_MANY};
use super::vectors::{tell, wrong};
use super::TablesCase;
use crate::aiger::fillings::{self, MOST_X};
use crate::aiger::{negation, refuse, step, Circuit};
use crate::generate::values::vector;
use crate::memory::Memory;
use crate::random::Random;

/// So many gates are stepped at most for one case.
const WORK: u64 = 1_000_000;

/// Often asks for one gate's negation, which is 1 in most fillings, or for the gate as well, so that every one shows a 1.
/// Its sides are inputs or latches, which have the x.
pub fn settle(random: &mut Random, circuit: &mut Circuit) {
    let inputs = circuit.inputs.iter().copied();
    let sources: Vec<u32> = inputs.chain(circuit.latches.iter().map(|latch| latch[0])).collect();
    let (Some([lhs, rhs0, rhs1]), false) = (circuit.gates.last_mut(), sources.is_empty()) else {
        return;
    };
    // Mostly without a sign, so that the first filling shows a 1 and a later one fails.
    let mut side = || *random.pick(&sources) + u32::from(random.once_in(4));
    let sides = [side(), side()];
    let asked = match random.below(8) {
        0..=1 => vec![*lhs],
        2..=6 => Vec::new(),
        _ => return,
    };
    (*rhs0, *rhs1) = (sides[0].max(sides[1]), sides[0].min(sides[1]));
    circuit.outputs = vec![negation(*lhs)];
    circuit.bads = asked;
    if random.once_in(2) {
        circuit.constraints.clear();
    }
}

pub fn add(random: &mut Random, circuit: &Circuit, beside: Beside, case: &mut TablesCase) {
    let start = fillings::unknown(&step::start(circuit));
    let many = beside.way(random, 20, &TOO_MANY);
    let (mut number, mut list) = list(random, circuit, start, many);
    let unknown = start + fillings::unknown(&list);
    let mut promise = if unknown > MOST_X { refuse(20, unknown) } else { Ok(()) };
    let none = many.is_some() && random.once_in(2);
    let allowance = match none {
        true => 0,
        false => allowance(random, circuit, unknown, number, &list),
    };
    if beside.wants(random, 12) && wrong(random, circuit.inputs.len() as u64, &mut number, &mut list) {
        promise = refuse(12, 2);
    }
    if case.promise != Some(Ok(())) {
        number = number.min(1000);
    }
    case.lent.numbers = vec![number, allowance];
    case.lent.bytes = vec![Memory::around(&list, random.word())];
    tell(case, promise);
}

/// A number of vectors and their bytes: mostly with up to six x, sometimes with as many as there may be; or with more.
fn list(random: &mut Random, circuit: &Circuit, start: usize, many: Option<u64>) -> (u64, Vec<u8>) {
    let i = circuit.inputs.len();
    let most = if i > 1000 { 2 } else { 6 };
    let some = random.below(most + 1);
    let mut number = *random.pick(&[0, 1, 1, 1, 2, 2, some, some]);
    let all = match many {
        Some(0) => MOST_X + 1,
        Some(_) => *random.pick(&[MOST_X + 2, MOST_X + 40]),
        None if random.once_in(10) => MOST_X,
        None => 0,
    };
    let unknown = if all > 0 && i > 0 && i < 100 {
        number = number.max((all - start).div_ceil(i));
        all - start
    } else {
        random.below(7)
    };
    let mut list = vector(random, 0, number * i);
    let mut places: Vec<usize> = (0..list.len()).collect();
    random.shuffle(&mut places);
    places.into_iter().take(unknown).for_each(|place| list[place] = b'x');
    (number as u64, list)
}

/// Around the number of fillings, around the number of those that decide, or any; so that the work is not too much.
fn allowance(random: &mut Random, circuit: &Circuit, unknown: usize, number: u64, list: &[u8]) -> u64 {
    let step = circuit.counts().list().iter().sum::<u64>() + 8;
    let most = WORK / (step * (number + 1));
    let word = random.word();
    let any = *random.pick(&[0, 0, 1, 2, 3, 1 << 32, (1 << 32) + 1, 1 << 63, u64::MAX, word]);
    let fillings = 1u64 << unknown.min(40);
    let deciding = || {
        let i = circuit.inputs.len();
        let vectors: Vec<&[u8]> = (0..number as usize).map(|k| &list[k * i..(k + 1) * i]).collect();
        fillings::witness(circuit, &vectors, most).tried
    };
    let around = match random.below(8) {
        0 => return if fillings > most { any.min(most) } else { any },
        1..=6 if unknown <= MOST_X && circuit.m < 1000 => deciding(),
        _ => fillings,
    };
    let allowance = (around + *random.pick(&[0, 1, 1, 1, 2, 2, 2, 3])).saturating_sub(2);
    if fillings > most {
        allowance.min(most)
    } else {
        allowance
    }
}
