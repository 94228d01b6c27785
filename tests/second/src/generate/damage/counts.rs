//! Counts that are well written and wrong: 2, 21, 3.

use super::{digits, harm, too_large, Damage, Harm, Slot, Spot};
use crate::aiger::{Circuit, MOST};
use crate::generate::draft::Draft;
use crate::random::Random;

pub const JUSTICE: &[Damage] = &[justice, justice, justice_and_disagree];

/// A header with all that it may have: M I L O A B C J F.
fn fill(draft: &mut Draft) {
    let most = draft.counts.len().max(9);
    draft.counts.resize(most, digits(0));
}

pub fn too_many(random: &mut Random, circuit: &Circuit, draft: &mut Draft) -> Option<Harm> {
    let k = random.below(9);
    if k >= draft.counts.len() || random.once_in(4) {
        fill(draft);
    }
    // J or F above 0 is judged after it.
    if random.once_in(9) {
        justice(random, circuit, draft);
    }
    let small = circuit.counts().list().get(k).copied().unwrap_or(0);
    *draft.counts.get_mut(k)? = too_large(random, MOST, small);
    // A later count may be too large as well; the first is named.
    if random.once_in(3) {
        *draft.counts.last_mut()? = digits(MOST + 1);
    }
    harm(2, Spot::Number(Slot::Count(k), 0))
}

/// J, F or both above 0.
fn justice(random: &mut Random, _: &Circuit, draft: &mut Draft) -> Option<Harm> {
    fill(draft);
    let k = random.between(7, 8);
    draft.counts[k] = digits(*random.pick(&[1, 1, 2, 10, MOST]));
    if k == 7 && random.once_in(2) {
        draft.counts.truncate(8);
    } else if random.once_in(2) {
        draft.counts[8] = digits(1 + random.below(9));
    }
    harm(21, Spot::Number(Slot::Count(k), 0))
}

/// 21 comes before 3.
fn justice_and_disagree(random: &mut Random, circuit: &Circuit, draft: &mut Draft) -> Option<Harm> {
    disagree(random, circuit, draft)?;
    justice(random, circuit, draft)
}

pub fn disagree(random: &mut Random, circuit: &Circuit, draft: &mut Draft) -> Option<Harm> {
    let counts = circuit.counts();
    let defined = counts.i + counts.l + counts.a;
    let more = 1 + counts.m - defined;
    let (k, value) = match random.below(5) {
        0 if defined > 0 => (0, defined - 1),
        1 if draft.is_binary() => (0, defined + 1),
        2 => (1, counts.i + more),
        3 => (2, counts.l + more),
        _ => (4, counts.a + more),
    };
    if value > MOST {
        return None;
    }
    *draft.counts.get_mut(k)? = digits(value);
    harm(3, Spot::Exactly(0))
}

/// A count a little off: what the lines then mean, only a reader can tell.
pub fn changed(random: &mut Random, circuit: &Circuit, draft: &mut Draft) -> Option<Harm> {
    let k = random.below(7);
    if k >= draft.counts.len() {
        fill(draft);
        draft.counts.truncate(random.between(7, 9));
    }
    let off = random.between(1, 2) as u64;
    let count = circuit.counts().list()[k];
    let changed = if random.once_in(2) {
        count + off
    } else {
        count.saturating_sub(off)
    };
    *draft.counts.get_mut(k)? = digits(changed);
    None
}
