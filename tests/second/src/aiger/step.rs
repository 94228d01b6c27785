//! Stepping in the values "0", "1", "x", of any accepted circuit whatever the order of its gates.

use super::{meaning, negated, variable, Circuit};

/// And, by place 0, 1, x of both sides.
const AND: [[u8; 3]; 3] = [*b"000", *b"01x", *b"0xx"];

fn index(value: u8) -> usize {
    match value {
        b'0' => 0,
        b'1' => 1,
        _ => 2,
    }
}

pub fn and(a: u8, b: u8) -> u8 {
    AND[index(a)][index(b)]
}

pub fn not(a: u8) -> u8 {
    match a {
        b'0' => b'1',
        b'1' => b'0',
        x => x,
    }
}

/// The value of a literal, given those of the variables.
pub fn value(values: &[u8], literal: u32) -> u8 {
    let positive = values[variable(literal)];
    if negated(literal) {
        not(positive)
    } else {
        positive
    }
}

/// Marks a variable without a value yet.
const NONE: u8 = 0;

/// The values of all variables; those not defined have none.
pub fn values(circuit: &Circuit, state: &[u8], input: &[u8]) -> Vec<u8> {
    let gate_of = meaning::gate_of(circuit);
    let mut values = vec![NONE; circuit.m as usize + 1];
    values[0] = b'0';
    for (&defining, &given) in circuit.inputs.iter().zip(input) {
        values[variable(defining)] = given;
    }
    for (latch, &given) in circuit.latches.iter().zip(state) {
        values[variable(latch[0])] = given;
    }
    // Asks for what a gate lacks before the gate itself, on a stack of its own because chains are long.
    let mut asked: Vec<usize> = (0..circuit.gates.len()).rev().collect();
    while let Some(&k) = asked.last() {
        let [lhs, rhs0, rhs1] = circuit.gates[k];
        match [rhs0, rhs1].iter().find(|&&side| values[variable(side)] == NONE) {
            Some(&side) => asked.push(gate_of[variable(side)].expect("an accepted circuit defines all it uses")),
            None => {
                values[variable(lhs)] = and(value(&values, rhs0), value(&values, rhs1));
                asked.pop();
            }
        }
    }
    values
}

#[derive(Clone, Debug, PartialEq, Eq)]
pub struct Step {
    pub output: Vec<u8>,
    pub bad: Vec<u8>,
    pub constraint: Vec<u8>,
    pub next: Vec<u8>,
}

impl Step {
    /// Whether an output or a bad state is "1".
    pub fn shows(&self) -> bool {
        self.output.contains(&b'1') || self.bad.contains(&b'1')
    }

    pub fn keeps_constraints(&self) -> bool {
        self.constraint.iter().all(|&value| value == b'1')
    }
}

/// One step; the next values are all taken from the old state.
pub fn step(circuit: &Circuit, state: &[u8], input: &[u8]) -> Step {
    let values = values(circuit, state, input);
    let all = |literals: &[u32]| literals.iter().map(|&literal| value(&values, literal)).collect();
    Step {
        output: all(&circuit.outputs),
        bad: all(&circuit.bads),
        constraint: all(&circuit.constraints),
        next: circuit.latches.iter().map(|latch| value(&values, latch[1])).collect(),
    }
}

/// The first state: what the resets say.
pub fn start(circuit: &Circuit) -> Vec<u8> {
    let value = |&reset: &u32| match reset {
        0 => b'0',
        1 => b'1',
        _ => b'x',
    };
    circuit.resets.iter().map(value).collect()
}

/// The steps of a list of input vectors from the first state, each with the state it starts from.
pub fn run<'a>(
    circuit: &'a Circuit,
    inputs: impl Iterator<Item = &'a [u8]> + 'a,
) -> impl Iterator<Item = (Vec<u8>, Step)> + 'a {
    run_from(circuit, start(circuit), inputs)
}

/// The same from another state.
pub fn run_from<'a>(
    circuit: &'a Circuit,
    mut state: Vec<u8>,
    inputs: impl Iterator<Item = &'a [u8]> + 'a,
) -> impl Iterator<Item = (Vec<u8>, Step)> + 'a {
    inputs.map(move |input| {
        let step = step(circuit, &state, input);
        (std::mem::replace(&mut state, step.next.clone()), step)
    })
}

/// The witness question in three values: a "1" counts while every constraint is "1", then and before.
pub fn witness<'a>(circuit: &'a Circuit, inputs: impl Iterator<Item = &'a [u8]> + 'a) -> bool {
    let mut kept = run(circuit, inputs).take_while(|(_, step)| step.keeps_constraints());
    kept.any(|(_, step)| step.shows())
}
