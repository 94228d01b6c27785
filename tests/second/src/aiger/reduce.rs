//! Reduction by one-level structural hashing, of a circuit in binary order.

use super::{literal, negation, variable, Circuit};
use std::collections::HashMap;

pub fn reduce(old: &Circuit) -> Circuit {
    let sources = old.inputs.len() + old.latches.len();
    // What each old variable's literal became; constants, inputs and latches stay.
    let mut became: Vec<u32> = (0..=sources).map(literal).collect();
    let mut retained: Vec<[u32; 3]> = Vec::new();
    let mut pairs: HashMap<(u32, u32), u32> = HashMap::new();
    for gate in &old.gates {
        let a = renamed(&became, gate[1]);
        let b = renamed(&became, gate[2]);
        let stands_for = trivial(a, b).unwrap_or_else(|| {
            let pair = (a.max(b), a.min(b));
            *pairs.entry(pair).or_insert_with(|| {
                let lhs = literal(sources + retained.len() + 1);
                retained.push([lhs, pair.0, pair.1]);
                lhs
            })
        });
        became.push(stands_for);
    }
    let m = (sources + retained.len()) as u64;
    old.renamed(|old| renamed(&became, old), m, retained)
}

fn renamed(became: &[u32], old: u32) -> u32 {
    became[variable(old)] ^ (old % 2)
}

/// The sides for which no gate is needed, in the paper's order.
fn trivial(a: u32, b: u32) -> Option<u32> {
    if a == b {
        Some(a)
    } else if a == negation(b) || a == 0 || b == 0 {
        Some(0)
    } else if a == 1 {
        Some(b)
    } else if b == 1 {
        Some(a)
    } else {
        None
    }
}
