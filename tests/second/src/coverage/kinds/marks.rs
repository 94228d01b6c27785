//! Of an explanation.

use super::{Kind, Seen};
use crate::aiger::step::{value, values};
use crate::aiger::{variable, Circuit};
use crate::naive;

pub const KINDS: &[Kind] = &[
    ("an output at 0", |seen| {
        of(seen, |values, output| value(values, output) == b'0')
    }),
    ("an output at 1", |seen| {
        of(seen, |values, output| value(values, output) == b'1')
    }),
    ("a constant output", |seen| of(seen, |_, output| variable(output) == 0)),
    ("without latches", |seen| seen.accepted(|c| c.latches.is_empty())),
    ("without inputs", |seen| seen.accepted(|c| c.inputs.is_empty())),
    ("marks on latches", |seen| {
        marks(seen).is_some_and(|[latches, _]| latches.contains(&b'1'))
    }),
    ("marks on inputs", |seen| {
        marks(seen).is_some_and(|[_, inputs]| inputs.contains(&b'1'))
    }),
    ("some marks of several", |seen| {
        marks(seen).is_some_and(|marks| marks.concat().contains(&b'1') && marks.concat().contains(&b'0'))
    }),
    ("an x beside", |seen| {
        seen.accepted(|_| {
            seen.before.bytes[..2]
                .iter()
                .any(|vector| vector.lent().contains(&b'x'))
        })
    }),
    ("a blamed gate with both sides 0", |seen| {
        blamed(seen, |values, [_, rhs0, rhs1]| {
            [rhs0, rhs1].iter().all(|&side| value(values, side) == b'0') && rhs0 != rhs1
        })
    }),
    ("a blamed gate with the second side 0 alone", |seen| {
        blamed(seen, |values, [_, rhs0, rhs1]| {
            value(values, rhs0) != b'0' && value(values, rhs1) == b'0'
        })
    }),
    ("a blamed gate at 1", |seen| {
        blamed(seen, |values, [lhs, ..]| value(values, lhs) == b'1')
    }),
    ("spare bytes", |seen| {
        seen.accepted(|c| seen.after.bytes[2].lent().len() > c.latches.len() + c.inputs.len())
    }),
    ("12 before 17", |seen| {
        let late = seen.outcome.as_ref().is_err_and(|refusal| refusal.number == 12);
        late && seen.number() >= seen.before.counts.lent()[3]
    }),
    ("17 before 11", |seen| {
        let number = seen.outcome.as_ref().err().map(|refusal| refusal.number);
        let needed = || seen.before.counts.lent()[1] + seen.before.counts.lent()[2];
        number == Some(17) && (seen.before.bytes[2].lent().len() as u64) < needed()
    }),
];

/// Of an accepted explanation, the values and the output.
fn of(seen: &Seen, is: impl Fn(&[u8], u32) -> bool) -> bool {
    seen.accepted(|c| is(&all(seen, c), output(seen, c)))
}

fn all(seen: &Seen, circuit: &Circuit) -> Vec<u8> {
    values(circuit, seen.before.bytes[0].lent(), seen.before.bytes[1].lent())
}

fn output(seen: &Seen, circuit: &Circuit) -> u32 {
    circuit.outputs[seen.number() as usize]
}

/// Whether some gate on the walk is so.
fn blamed(seen: &Seen, is: impl Fn(&[u8], [u32; 3]) -> bool) -> bool {
    seen.accepted(|c| {
        let values = all(seen, c);
        let blamed = naive::blamed(c, &values, variable(output(seen, c)));
        let mut gates = c.gates.iter().filter(|gate| blamed[variable(gate[0])]);
        gates.any(|&gate| is(&values, gate))
    })
}

/// The marks of latches and of inputs.
fn marks<'a>(seen: &'a Seen) -> Option<[&'a [u8]; 2]> {
    let circuit = seen.outcome.as_ref().ok()?;
    let (latches, rest) = seen.after.bytes[2].lent().split_at(circuit.latches.len());
    Some([latches, &rest[..circuit.inputs.len()]])
}
