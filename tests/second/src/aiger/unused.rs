//! Unused gates are dropped from a circuit in binary order, and the gaps closed.

use super::{literal, variable, Circuit};

pub fn drop_unused(old: &Circuit) -> Circuit {
    let reached = reached(old);
    let sources = old.inputs.len() + old.latches.len();
    // The new variable of each old one; of a dropped gate it is never asked.
    let mut became: Vec<usize> = (0..=sources).collect();
    let mut retained: Vec<[u32; 3]> = Vec::new();
    for gate in &old.gates {
        if !reached[variable(gate[0])] {
            became.push(0);
            continue;
        }
        let number = sources + retained.len() + 1;
        retained.push([literal(number), renamed(&became, gate[1]), renamed(&became, gate[2])]);
        became.push(number);
    }
    let m = (sources + retained.len()) as u64;
    old.renamed(|old| renamed(&became, old), m, retained)
}

fn renamed(became: &[usize], old: u32) -> u32 {
    literal(became[variable(old)]) + old % 2
}

/// The variables that next states, outputs, bad states and constraints reach, by a search from them.
fn reached(circuit: &Circuit) -> Vec<bool> {
    let first = 1 + circuit.inputs.len() + circuit.latches.len();
    let mut reached = vec![false; circuit.m as usize + 1];
    let next = circuit.latches.iter().map(|latch| latch[1]);
    let mut open: Vec<usize> = next.chain(circuit.asked()).map(variable).collect();
    while let Some(v) = open.pop() {
        if reached[v] {
            continue;
        }
        reached[v] = true;
        if v >= first {
            let [_, rhs0, rhs1] = circuit.gates[v - first];
            open.extend([variable(rhs0), variable(rhs1)]);
        }
    }
    reached
}
