//! The paper's definitions taken word for word, slow, to hold the quicker ones to.

use crate::aiger::{step, variable, Circuit};

/// For each gate whether it depends, in any number of steps, on each other gate.
pub fn depends(circuit: &Circuit) -> Vec<Vec<bool>> {
    let gates = &circuit.gates;
    let on = |k: usize, other: usize| {
        let lhs = variable(gates[other][0]);
        variable(gates[k][1]) == lhs || variable(gates[k][2]) == lhs
    };
    let all = 0..gates.len();
    let mut depends: Vec<Vec<bool>> = all
        .clone()
        .map(|k| all.clone().map(|other| on(k, other)).collect())
        .collect();
    for middle in all.clone() {
        let through = depends[middle].clone();
        for row in depends.iter_mut().filter(|row| row[middle]) {
            for (reached, &further) in row.iter_mut().zip(&through) {
                *reached |= further;
            }
        }
    }
    depends
}

/// For each gate whether a literal that is asked for or a next state reaches it, by way of what it depends on.
pub fn reached(circuit: &Circuit) -> Vec<bool> {
    let depends = depends(circuit);
    let all = 0..circuit.gates.len();
    let next = circuit.latches.iter().map(|latch| latch[1]);
    let roots: Vec<usize> = next.chain(circuit.asked()).map(variable).collect();
    let root = |k: usize| roots.contains(&variable(circuit.gates[k][0]));
    let reached = |k: usize| root(k) || all.clone().any(|other| root(other) && depends[other][k]);
    all.clone().map(reached).collect()
}

/// The place of refusal 8: the first gate that depends on itself or on one that does.
pub fn first_on_cycle(circuit: &Circuit) -> Option<usize> {
    let depends = depends(circuit);
    let all = 0..circuit.gates.len();
    let cyclic = |k: usize| depends[k][k];
    let first = all
        .clone()
        .find(|&k| cyclic(k) || all.clone().any(|other| depends[k][other] && cyclic(other)));
    first.map(|k| variable(circuit.gates[k][0]))
}

/// The order of conversion, the scan starting again at the first gate after each number given.
pub fn order(circuit: &Circuit) -> Vec<usize> {
    let mut numbered = vec![false; circuit.m as usize + 1];
    numbered[0] = true;
    for (literal, table) in circuit.defining() {
        numbered[variable(literal)] = table != 4;
    }
    let mut order = Vec::new();
    'numbers: loop {
        for (k, gate) in circuit.gates.iter().enumerate() {
            if !numbered[variable(gate[0])] && numbered[variable(gate[1])] && numbered[variable(gate[2])] {
                numbered[variable(gate[0])] = true;
                order.push(k);
                continue 'numbers;
            }
        }
        return order;
    }
}

/// The values of all variables: gates are worked out again and again, until as often as there are gates.
pub fn values(circuit: &Circuit, state: &[u8], input: &[u8]) -> Vec<u8> {
    let mut values = vec![b'x'; circuit.m as usize + 1];
    values[0] = b'0';
    for (k, &given) in input.iter().enumerate() {
        values[variable(circuit.inputs[k])] = given;
    }
    for (k, &given) in state.iter().enumerate() {
        values[variable(circuit.latches[k][0])] = given;
    }
    for _ in &circuit.gates {
        for &[lhs, rhs0, rhs1] in &circuit.gates {
            values[variable(lhs)] = step::and(step::value(&values, rhs0), step::value(&values, rhs1));
        }
    }
    values
}

/// All that comes of putting 0 or 1 at each x: first of all, the last x is 0, and below it all others are tried.
pub fn fillings(values: &[u8], all: &mut Vec<Vec<u8>>) {
    let Some(last) = values.iter().rposition(|&value| value == b'x') else {
        return all.push(values.to_vec());
    };
    for value in *b"01" {
        let mut fewer = values.to_vec();
        fewer[last] = value;
        fillings(&fewer, all);
    }
}

/// What the walk from a variable blames: gates pass the blame on again and again, until nothing changes.
pub fn blamed(circuit: &Circuit, values: &[u8], from: usize) -> Vec<bool> {
    let mut blamed = vec![false; circuit.m as usize + 1];
    blamed[from] = true;
    loop {
        let before = blamed.clone();
        for &[lhs, rhs0, rhs1] in circuit.gates.iter().rev().filter(|gate| before[variable(gate[0])]) {
            let sides = [rhs0, rhs1].into_iter();
            let passes = |side: &u32| step::value(values, lhs) == b'1' || step::value(values, *side) == b'0';
            let most = if step::value(values, lhs) == b'1' { 2 } else { 1 };
            for side in sides.filter(passes).take(most) {
                blamed[variable(side)] = true;
            }
        }
        if blamed == before {
            return blamed;
        }
    }
}
