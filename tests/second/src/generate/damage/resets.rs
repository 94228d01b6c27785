//! Resets that are neither 0 nor 1 nor the latch's own literal: 5, after the line's other numbers and before 6.

use super::{digits, harm, line_end, too_large, Damage, Harm, Slot, Spot};
use crate::aiger::{negation, Circuit};
use crate::generate::draft::Draft;
use crate::random::Random;

pub const ALL: &[Damage] = &[wrong, wrong, wrong_and_next, wrong_and_second, wrong_and_marked, longer];

/// Some latch and its line.
fn some_latch(random: &mut Random, circuit: &Circuit, draft: &Draft) -> Option<(usize, usize)> {
    let latches = circuit.latches.len().min(draft.latches.len());
    let latch = (latches > 0).then(|| random.below(latches))?;
    let line = draft.latches.start + latch;
    // Other damage may have taken a number away.
    (draft.lines[line].len() >= *draft.fields(line).start()).then_some((latch, line))
}

/// Another latch's literal, the negation, one that is near, or one so large that a word would wrap round.
fn no_reset(random: &mut Random, circuit: &Circuit, latch: usize) -> Vec<u8> {
    let own = circuit.latches[latch][0];
    let other = random.pick(&circuit.latches)[0];
    let most = 2 * circuit.m as u32 + 1;
    let any = 2 + random.below(most as usize - 1) as u32;
    match *random.pick(&[other, other, negation(own), own + 2, any, 2, 3, most, 0]) {
        0 | 1 => {
            let small = *random.pick(&[0, 1, own]);
            too_large(random, most.into(), small.into())
        }
        reset if reset == own => digits(negation(own)),
        reset => digits(reset),
    }
}

/// The place of the number that was put.
fn put(draft: &mut Draft, line: usize, reset: Vec<u8>) -> (usize, Spot) {
    let at = *draft.fields(line).start();
    draft.lines[line].truncate(at);
    draft.lines[line].push(reset);
    (at, Spot::Number(Slot::Field(line, at), 0))
}

fn wrong(random: &mut Random, circuit: &Circuit, draft: &mut Draft) -> Option<Harm> {
    let (latch, line) = some_latch(random, circuit, draft)?;
    let reset = no_reset(random, circuit, latch);
    harm(5, put(draft, line, reset).1)
}

/// The next state is judged before it.
fn wrong_and_next(random: &mut Random, circuit: &Circuit, draft: &mut Draft) -> Option<Harm> {
    let (latch, line) = some_latch(random, circuit, draft)?;
    let reset = no_reset(random, circuit, latch);
    let (at, _) = put(draft, line, reset);
    draft.lines[line][at - 1] = too_large(random, 2 * circuit.m + 1, 2);
    harm(5, Spot::Number(Slot::Field(line, at - 1), 0))
}

/// 5 comes before 6 on one line.
fn wrong_and_second(random: &mut Random, circuit: &Circuit, draft: &mut Draft) -> Option<Harm> {
    let (latch, line) = some_latch(random, circuit, draft)?;
    let defined = *circuit.inputs.first()?;
    if draft.is_binary() {
        return None;
    }
    draft.lines[line][0] = digits(defined);
    let reset = *random.pick(&[circuit.latches[latch][0], defined + 1, defined + 2]);
    harm(5, put(draft, line, digits(reset)).1)
}

/// 1 comes before 5 on one line; a third or fourth number can't stand there either.
fn wrong_and_marked(random: &mut Random, circuit: &Circuit, draft: &mut Draft) -> Option<Harm> {
    let (latch, line) = some_latch(random, circuit, draft)?;
    let reset = no_reset(random, circuit, latch);
    let (at, _) = put(draft, line, reset);
    let end = line_end(draft, Slot::Field(line, at));
    match random.below(3) {
        0 => draft.lines[line].push(digits(0)),
        _ => draft.lines[line][at].push(*random.pick(b"\r \tx")),
    }
    harm(1, end)
}

/// A good reset with a zero before it.
fn longer(random: &mut Random, circuit: &Circuit, draft: &mut Draft) -> Option<Harm> {
    let (latch, line) = some_latch(random, circuit, draft)?;
    let reset = *random.pick(&[0, 1, circuit.latches[latch][0]]);
    let (at, _) = put(draft, line, [b"0", digits(reset).as_slice()].concat());
    harm(1, Spot::Number(Slot::Field(line, at), 1))
}
