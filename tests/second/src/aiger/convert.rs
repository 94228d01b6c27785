//! Conversion to binary order, of a circuit that has been accepted.

use super::meaning::{self, Users};
use super::{literal, variable, Circuit};
use std::cmp::Reverse;
use std::collections::BinaryHeap;

pub struct Converted {
    pub circuit: Circuit,
    /// For each old variable its new one; 0 for those not defined.
    pub became: Vec<usize>,
}

pub fn convert(old: &Circuit) -> Converted {
    let order = order(old);
    let mut became = vec![0; old.m as usize + 1];
    let sources = old.inputs.iter().chain(old.latches.iter().map(|latch| &latch[0]));
    let gates = order.iter().map(|&k| &old.gates[k][0]);
    for (&defining, new) in sources.chain(gates).zip(1..) {
        became[variable(defining)] = new;
    }
    let renamed = |old: u32| literal(became[variable(old)]) + old % 2;
    let gates = order.iter().map(|&k| larger_first(old.gates[k].map(renamed))).collect();
    let circuit = old.renamed(renamed, old.defining().count() as u64, gates);
    Converted { circuit, became }
}

fn larger_first([lhs, a, b]: [u32; 3]) -> [u32; 3] {
    [lhs, a.max(b), a.min(b)]
}

/// The gates in the order in which they get numbers. The heap holds all that are ready, so its least is what
/// a scan from the first gate would find.
fn order(circuit: &Circuit) -> Vec<usize> {
    let Users { of, mut waits_for } = meaning::users(circuit);
    let ready = (0..of.len()).filter(|&k| waits_for[k] == 0);
    let mut heap: BinaryHeap<Reverse<usize>> = ready.map(Reverse).collect();
    let mut order = Vec::with_capacity(of.len());
    while let Some(Reverse(k)) = heap.pop() {
        order.push(k);
        for &user in &of[k] {
            waits_for[user] -= 1;
            if waits_for[user] == 0 {
                heap.push(Reverse(user));
            }
        }
    }
    order
}
