//! A gate's number, two right sides and the values of a step: 22, 5, 15, 12, 23.

use super::turns::{Beside, TOO_MANY, WRONG_VALUES};
use super::vectors::tell;
use super::TablesCase;
use crate::aiger::{step, Circuit, Refusal};
use crate::generate::values::{no_value, vector};
use crate::memory::Memory;
use crate::random::Random;

type Told = Result<(), Refusal>;

/// What the call is given beside the tables.
struct Edit {
    gate: u64,
    lhs: u32,
    sides: [u32; 2],
    values: Vec<u8>,
}

/// None if the circuit has no such variable as is to have a wrong value.
pub fn add(random: &mut Random, circuit: &Circuit, beside: Beside, case: &mut TablesCase) -> Option<()> {
    let mut edit = Edit::new(random, circuit);
    let mut promise = Ok(());
    // Of all that is wrong the first is told, and the rest is left as it is.
    if let Some(way) = beside.way(random, 23, &WRONG_VALUES) {
        promise = edit.has_wrong_value(random, circuit, way)?;
    }
    if beside.wants(random, 12) {
        promise = edit.has_wrong_length(random);
    }
    if beside.wants(random, 15) {
        promise = edit.is_not_below(random, circuit);
    }
    if beside.wants(random, 5) {
        promise = edit.is_out_of_range(random, circuit);
    }
    let none = circuit.gates.is_empty().then_some(0);
    if let Some(way) = beside.way(random, 22, &TOO_MANY).or(none) {
        promise = edit.has_no_gate(random, circuit, way);
    }
    let [one, other] = edit.sides;
    case.lent.numbers = vec![edit.gate, one.into(), other.into()];
    case.lent.bytes = vec![Memory::around(&edit.values, random.word())];
    tell(case, promise);
    Some(())
}

impl Edit {
    /// The first gate, a middle one or the last.
    fn new(random: &mut Random, circuit: &Circuit) -> Edit {
        let gate = *random.pick(&[0, circuit.gates.len() / 2, circuit.gates.len().saturating_sub(1)]);
        let lhs = circuit.gates.get(gate).map_or(2, |gate| gate[0]);
        let mut below = || random.below(lhs as usize) as u32;
        let mut sides = [below(), below()];
        if random.once_in(5) {
            sides[1] = sides[0];
        }
        let unknown = random.below(4);
        let state = vector(random, unknown, circuit.latches.len());
        let input = vector(random, unknown, circuit.inputs.len());
        Edit {
            gate: gate as u64,
            lhs,
            sides,
            values: step::values(circuit, &state, &input),
        }
    }

    /// No gate has this number, which is just too large or far beyond 32 bits.
    fn has_no_gate(&mut self, random: &mut Random, circuit: &Circuit, way: u64) -> Told {
        let a = circuit.gates.len() as u64;
        let wrapping = (1 << 32) + self.gate;
        self.gate = match way {
            0 => *random.pick(&[a, a, a + 1]),
            _ => *random.pick(&[wrapping, wrapping, 1 << 63, u64::MAX]),
        };
        refused(22, self.gate)
    }

    fn is_out_of_range(&mut self, random: &mut Random, circuit: &Circuit) -> Told {
        let most = 2 * circuit.m as u32 + 1;
        self.sides[random.below(2)] = *random.pick(&[most + 1, most + 1, most + 2, 1 << 31, u32::MAX]);
        refused(5, 4)
    }

    /// The gate's own literal, its negation, or one above.
    fn is_not_below(&mut self, random: &mut Random, circuit: &Circuit) -> Told {
        let lhs = self.lhs;
        let above = random.between(lhs as usize, (2 * circuit.m as usize + 1).max(lhs as usize)) as u32;
        self.sides[random.below(2)] = *random.pick(&[lhs, lhs + 1, above]);
        refused(15, 0)
    }

    fn has_wrong_length(&mut self, random: &mut Random) -> Told {
        match random.below(4) {
            0 => self.values.clear(),
            1 => drop(self.values.pop()),
            2 => self.values.extend(*b"010"),
            _ => self.values.push(b'0'),
        }
        refused(12, 4)
    }

    /// The constant, an input or latch, or a gate with another value or a byte that is none; a later value is often wrong
    /// too. What follows from another value of an input is not foretold, so that there the byte is none.
    fn has_wrong_value(&mut self, random: &mut Random, circuit: &Circuit, way: u64) -> Option<Told> {
        let sources = circuit.inputs.len() + circuit.latches.len();
        let [first, last] = [[0, 0], [1, sources], [sources + 1, self.values.len() - 1]][way as usize];
        if first > last {
            return None;
        }
        let any = random.between(first, last);
        let v = *random.pick(&[first, last, any, any]);
        let others: Vec<u8> = b"01x"
            .iter()
            .copied()
            .filter(|&other| other != self.values[v])
            .collect();
        let other = *random.pick(&others);
        self.values[v] = if (1..=sources).contains(&v) || random.once_in(3) {
            no_value(random)
        } else {
            other
        };
        let later = random.between(v, self.values.len() - 1);
        if later > v && random.once_in(3) {
            self.values[later] = no_value(random);
        }
        Some(refused(23, v as u64))
    }
}

fn refused(number: u64, place: u64) -> Told {
    Err(Refusal { number, place })
}
