//! What only the whole circuit shows: undefined variables (7) and cycles (8).

use super::{refuse, variable, Circuit, Refusal};

/// For each variable the number of its gate.
pub fn gate_of(circuit: &Circuit) -> Vec<Option<usize>> {
    let mut gate_of = vec![None; circuit.m as usize + 1];
    for (k, gate) in circuit.gates.iter().enumerate() {
        gate_of[variable(gate[0])] = Some(k);
    }
    gate_of
}

pub fn all_defined(circuit: &Circuit) -> Result<(), Refusal> {
    let mut defined = vec![false; circuit.m as usize + 1];
    // The constants need no definition.
    defined[0] = true;
    for (literal, _) in circuit.defining() {
        defined[variable(literal)] = true;
    }
    match circuit.used().map(variable).filter(|&v| !defined[v]).min() {
        Some(least) => refuse(7, least),
        None => Ok(()),
    }
}

/// For each gate, the gates that have it on their right side, once for each side.
pub struct Users {
    pub of: Vec<Vec<usize>>,
    /// For each gate, how many of its right sides are gates.
    pub waits_for: Vec<usize>,
}

pub fn users(circuit: &Circuit) -> Users {
    let gate_of = gate_of(circuit);
    let mut of = vec![Vec::new(); circuit.gates.len()];
    let mut waits_for = vec![0; circuit.gates.len()];
    for (k, gate) in circuit.gates.iter().enumerate() {
        for side in [gate[1], gate[2]] {
            if let Some(below) = gate_of[variable(side)] {
                of[below].push(k);
                waits_for[k] += 1;
            }
        }
    }
    Users { of, waits_for }
}

/// Takes away gates that wait for nothing until none is left; what stays is in or above a cycle.
pub fn acyclic(circuit: &Circuit) -> Result<(), Refusal> {
    let Users { of, mut waits_for } = users(circuit);
    let mut free: Vec<usize> = (0..of.len()).filter(|&k| waits_for[k] == 0).collect();
    while let Some(k) = free.pop() {
        for &user in &of[k] {
            waits_for[user] -= 1;
            if waits_for[user] == 0 {
                free.push(user);
            }
        }
    }
    match waits_for.iter().position(|&waits| waits > 0) {
        Some(first) => refuse(8, variable(circuit.gates[first][0])),
        None => Ok(()),
    }
}
