//! Differences that are zero or too large (9), badly written (16), or cut off by the end of the file (1).

use super::{harm, Damage, Harm, Spot};
use crate::aiger::Circuit;
use crate::generate::draft::{difference, Draft};
use crate::random::Random;

pub const SIZES: &[Damage] = &[
    zero,
    zero_at_the_end,
    first_too_large,
    second_too_large,
    too_large_before_longer,
    cut,
];

pub const WRITINGS: &[Damage] = &[
    longer,
    longer_and_zero,
    longer_and_too_large,
    four_bytes,
    high_at_the_end,
    cut,
];

fn some_gate(random: &mut Random, circuit: &Circuit, draft: &Draft) -> Option<usize> {
    let gates = circuit.gates.len().min(draft.differences.len() / 2);
    (gates > 0).then(|| random.below(gates))
}

fn some_difference(random: &mut Random, draft: &Draft) -> Option<usize> {
    let all = draft.differences.len();
    (all > 0).then(|| random.below(all))
}

fn zero(random: &mut Random, circuit: &Circuit, draft: &mut Draft) -> Option<Harm> {
    let first = 2 * some_gate(random, circuit, draft)?;
    draft.differences[first] = vec![0];
    harm(9, Spot::Difference(first))
}

/// The first difference is judged before the second is missed.
fn zero_at_the_end(random: &mut Random, circuit: &Circuit, draft: &mut Draft) -> Option<Harm> {
    let first = 2 * some_gate(random, circuit, draft)?;
    draft.differences[first] = vec![0];
    draft.end_after_difference(first + 1);
    harm(9, Spot::Difference(first))
}

/// A difference just or far above what it's taken from, still of three bytes.
fn above(random: &mut Random, from: u32) -> Vec<u8> {
    let most = (1 << 21) - 1;
    let value = match random.below(3) {
        0 => from + 1,
        1 => from + 1 + random.below(200) as u32,
        _ => most - random.below(100) as u32,
    };
    difference(value.max(from + 1).min(most))
}

fn first_too_large(random: &mut Random, circuit: &Circuit, draft: &mut Draft) -> Option<Harm> {
    let gate = some_gate(random, circuit, draft)?;
    draft.differences[2 * gate] = above(random, circuit.gates[gate][0]);
    harm(9, Spot::Difference(2 * gate))
}

fn second_too_large(random: &mut Random, circuit: &Circuit, draft: &mut Draft) -> Option<Harm> {
    let gate = some_gate(random, circuit, draft)?;
    draft.differences[2 * gate + 1] = above(random, circuit.gates[gate][1]);
    harm(9, Spot::Difference(2 * gate + 1))
}

/// The same value with one or two groups of zeros more, or in a fourth byte.
fn lengthen(random: &mut Random, bytes: &mut Vec<u8>) -> Option<()> {
    *bytes.last_mut()? |= 128;
    if bytes.len() == 1 && random.once_in(2) {
        bytes.push(128);
    }
    bytes.push(0);
    Some(())
}

fn longer(random: &mut Random, _: &Circuit, draft: &mut Draft) -> Option<Harm> {
    let k = some_difference(random, draft)?;
    lengthen(random, &mut draft.differences[k])?;
    harm(16, Spot::Difference(k))
}

/// What is both is reported for its writing.
fn longer_and_zero(random: &mut Random, circuit: &Circuit, draft: &mut Draft) -> Option<Harm> {
    let first = 2 * some_gate(random, circuit, draft)?;
    draft.differences[first] = vec![0];
    lengthen(random, &mut draft.differences[first])?;
    harm(16, Spot::Difference(first))
}

fn longer_and_too_large(random: &mut Random, circuit: &Circuit, draft: &mut Draft) -> Option<Harm> {
    let gate = some_gate(random, circuit, draft)?;
    let side = random.below(2);
    let k = 2 * gate + side;
    draft.differences[k] = above(random, circuit.gates[gate][side]);
    lengthen(random, &mut draft.differences[k])?;
    harm(16, Spot::Difference(k))
}

/// The first difference is judged completely before the second is read.
fn too_large_before_longer(random: &mut Random, circuit: &Circuit, draft: &mut Draft) -> Option<Harm> {
    let gate = some_gate(random, circuit, draft)?;
    draft.differences[2 * gate] = above(random, circuit.gates[gate][0]);
    lengthen(random, &mut draft.differences[2 * gate + 1])?;
    harm(9, Spot::Difference(2 * gate))
}

fn four_bytes(random: &mut Random, _: &Circuit, draft: &mut Draft) -> Option<Harm> {
    let k = some_difference(random, draft)?;
    let mut bytes = vec![random.byte() | 128, random.byte() | 128, random.byte() | 128];
    bytes.push(random.byte());
    draft.differences[k] = bytes;
    harm(16, Spot::Difference(k))
}

/// Three bytes with the high bit are too many even where the file ends.
fn high_at_the_end(random: &mut Random, _: &Circuit, draft: &mut Draft) -> Option<Harm> {
    let k = some_difference(random, draft)?;
    draft.differences[k] = vec![random.byte() | 128, random.byte() | 128, random.byte() | 128];
    draft.end_after_difference(k + 1);
    harm(16, Spot::Difference(k))
}

/// The file ends before a difference or after one or two of its bytes.
fn cut(random: &mut Random, _: &Circuit, draft: &mut Draft) -> Option<Harm> {
    let k = some_difference(random, draft)?;
    draft.differences[k] = (0..random.below(3)).map(|_| random.byte() | 128).collect();
    draft.end_after_difference(k + 1);
    harm(1, Spot::End)
}
