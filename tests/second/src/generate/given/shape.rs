//! The sizes of the circuits that a call is given, so that there is a place for what is to be wrong.

use super::turns::{Aim, Turn};
use crate::aiger::plain::MOST_GATES;
use crate::aiger::Form;
use crate::generate::circuit::{self, Size};
use crate::library::Call;
use crate::random::Random;

/// None if a circuit of the size that was chosen can't be made to fit.
pub fn size(random: &mut Random, call: Call, turn: Turn, form: Form) -> Option<Size> {
    let mut size = circuit::size(random, form);
    let aim = match turn {
        Turn::Beside(Aim { number, way }) => Some((number, way)),
        _ => None,
    };
    match call {
        // Where little is asked, a first state or a constraint decides more often.
        Call::Witness | Call::Witness3 if !random.once_in(3) => {
            size.o = size.o.min(1);
            size.b = size.b.min(2);
            // Where there are few inputs, the x are among those that decide.
            size.i = if call == Call::Witness { size.i.min(3) } else { size.i };
        }
        Call::StepPlain if size.i + size.unused < 100_000 => size.a = gates(random, aim, size.a),
        Call::StepPlain if matches!(aim, Some((24, _))) => return None,
        Call::WriteCards if turn.spares_tables() => hold(aim, &mut size),
        Call::Explain if turn.spares_tables() && aim != Some((17, 1)) => size.o = size.o.max(1),
        Call::Rewire if turn.spares_tables() && !matches!(aim, Some((22, _))) => size.a = size.a.max(1),
        _ => {}
    }
    Some(size)
}

/// As many as the plain engine takes or fewer, often on that line; or one more, or many.
fn gates(random: &mut Random, aim: Option<(u64, u64)>, any: usize) -> usize {
    let most = MOST_GATES as usize;
    match (aim, random.below(4)) {
        (Some((24, 0)), _) => most + 1,
        (Some((24, _)), _) => random.between(most + 2, 60),
        (_, 0) => *random.pick(&[0, 1, most]),
        _ => any.min(most),
    }
}

/// What cards can hold, but for what 19 is to be told for.
fn hold(aim: Option<(u64, u64)>, size: &mut Size) {
    (size.b, size.c, size.starts) = (0, 0, false);
    match aim {
        Some((19, 1)) => (size.l, size.starts) = (size.l.max(2), true),
        Some((19, 2)) => size.b = 2,
        Some((19, 3)) => size.c = 2,
        _ => {}
    }
}
