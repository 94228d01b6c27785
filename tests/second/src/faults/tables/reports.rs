//! What a report may get wrong.

use super::slips::{margin, Slip};
use crate::aiger::step;
use crate::compare::tables::{circuit, outcome};
use crate::coverage::vectors::list;
use crate::library::Lent;

pub const REPORT: &[(&str, Slip)] = &[
    ("the first step a change", |before, after| {
        if before.number() > 0 {
            each(after, |numbers| numbers[3] += 1);
        }
    }),
    ("x counted as 0", |_, after| {
        each(after, |numbers| {
            numbers[0] += std::mem::take(&mut numbers[2]);
        });
    }),
    ("the last step forgotten", |before, after| {
        if before.number() > 0 {
            each(after, |numbers| numbers[0] = numbers[0].saturating_sub(1));
        }
    }),
    ("latches counted after the step", |before, after| {
        if outcome(after).is_ok() {
            after_the_step(before, after);
        }
    }),
    ("latches before outputs", |before, after| {
        let outputs = before.counts.lent()[3] as usize;
        if outcome(after).is_ok() {
            let words = 4 * (outputs + before.counts.lent()[2] as usize);
            after.written[0].lent_mut()[..words].rotate_left(4 * outputs);
        }
    }),
    ("13 after 12", |before, after| {
        let late = outcome(after).is_err_and(|refusal| refusal.number == 13);
        let wrong = before.bytes[0].lent().len() as u64 != before.counts.lent()[1];
        if late && wrong {
            after.answer.lent_mut().copy_from_slice(&[12, 2]);
        }
    }),
    ("table 6 left after a refusal", |before, after| {
        if outcome(after).is_err() {
            after.written = before.written.clone();
        }
    }),
    ("spare word left", |before, after| {
        if let (Ok(()), Some(spare)) = (outcome(after), after.written[0].lent_mut().last_mut()) {
            *spare = before.written[0].lent()[before.written[0].lent().len() - 1];
        }
    }),
    ("writes behind table 6", |_, after| margin(&mut after.written[0], true)),
    ("list changed", |_, after| after.bytes[0].lent_mut().fill(b'0')),
];

/// Spoils the numbers of each output and latch, and of what follows.
fn each(after: &mut Lent, spoil: fn(&mut [u32; 4])) {
    if outcome(after).is_ok() {
        after.written[0]
            .lent_mut()
            .as_chunks_mut::<4>()
            .0
            .iter_mut()
            .for_each(spoil);
    }
}

/// The first numbers of each latch by its next states.
fn after_the_step(before: &Lent, after: &mut Lent) {
    let circuit = circuit(before);
    let next: Vec<Vec<u8>> = step::run(&circuit, list(before, &circuit).into_iter())
        .map(|(_, step)| step.next)
        .collect();
    let latches = &mut after.written[0].lent_mut()[4 * circuit.outputs.len()..];
    for (k, numbers) in latches
        .as_chunks_mut::<4>()
        .0
        .iter_mut()
        .take(circuit.latches.len())
        .enumerate()
    {
        for (count, value) in numbers.iter_mut().zip(*b"01x") {
            *count = next.iter().filter(|state| state[k] == value).count() as u32;
        }
    }
}
