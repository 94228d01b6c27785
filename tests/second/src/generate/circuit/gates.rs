//! The gates of a circuit in binary order.

use super::any_literal;
use crate::aiger::{literal, negation, variable};
use crate::random::Random;

/// How the right sides of gates are chosen.
#[derive(Clone, Copy)]
enum Sides {
    Anywhere,
    Near,
    Far,
    Chain,
    Star,
    Duplicates,
    Twins,
}

pub fn gates(random: &mut Random, sources: usize, a: usize) -> Vec<[u32; 3]> {
    use Sides::*;
    let kind = *random.pick(&[Anywhere, Near, Far, Chain, Star, Duplicates, Twins]);
    let mut gates: Vec<[u32; 3]> = Vec::with_capacity(a);
    for k in 0..a {
        let below = sources + k;
        let [rhs0, mut rhs1] = sides(random, kind, &gates, sources, below);
        match random.below(24) {
            0 | 1 => rhs1 = rhs0,
            2 => rhs1 = negation(rhs0),
            3 => rhs1 = random.below(2) as u32,
            _ => {}
        }
        gates.push([literal(below + 1), rhs0.max(rhs1), rhs0.min(rhs1)]);
    }
    gates
}

/// Two right sides of variables up to `below`.
fn sides(random: &mut Random, kind: Sides, gates: &[[u32; 3]], sources: usize, below: usize) -> [u32; 2] {
    let other = any_literal(random, below);
    let sign = random.below(2) as u32;
    match kind {
        Sides::Anywhere => [other, any_literal(random, below)],
        Sides::Near => [0, 1].map(|_| literal(below - random.below(below.min(4) + 1)) + random.below(2) as u32),
        Sides::Far => [0, 1].map(|_| any_literal(random, below.min(5))),
        Sides::Chain => [literal(below) + sign, other],
        Sides::Star => [literal(below.min(sources + 1)) + sign, other],
        Sides::Duplicates if !gates.is_empty() && !random.once_in(3) => {
            let [_, rhs0, rhs1] = *random.pick(gates);
            [rhs0, rhs1]
        }
        Sides::Twins if !gates.is_empty() && !random.once_in(3) => {
            let [_, rhs0, rhs1] = *random.pick(gates);
            [rhs0, rhs1].map(|side| twin(random, gates, sources, side))
        }
        Sides::Twins => [other, any_literal(random, below)],
        Sides::Duplicates => [any_literal(random, sources), any_literal(random, sources)],
    }
}

/// The same literal, or that of a gate with the same right sides. Gates on twins have the same pair once those are
/// replaced, in whatever order their numbers stood.
fn twin(random: &mut Random, gates: &[[u32; 3]], sources: usize, side: u32) -> u32 {
    let Some(gate) = variable(side).checked_sub(sources + 1) else {
        return side;
    };
    let [_, rhs0, rhs1] = gates[gate];
    let twins = gates.iter().filter(|twin| twin[1..] == [rhs0, rhs1]);
    let twins: Vec<u32> = twins.map(|twin| twin[0]).collect();
    *random.pick(&twins) + side % 2
}
