//! Numbers of lines that are well written and wrong: 5, 6, 7, 8.

use super::{digits, harm, line_end, too_large, Damage, Harm, Slot, Spot};
use crate::aiger::{literal, variable, Circuit};
use crate::generate::draft::Draft;
use crate::naive;
use crate::random::Random;

pub const RANGES: &[Damage] = &[
    out_of_range,
    out_of_range,
    defines_nothing,
    defines_nothing,
    out_of_range_and_second,
    out_of_range_and_marked,
];

/// The lines of a text file whose first number defines.
fn defining_lines(circuit: &Circuit, draft: &Draft) -> Vec<usize> {
    if draft.is_binary() {
        return Vec::new();
    }
    let sources = circuit.inputs.len() + circuit.latches.len();
    let gates = sources + circuit.asked().count();
    let all = gates + circuit.gates.len();
    (0..sources)
        .chain(gates..all)
        .filter(|&line| line < draft.lines.len())
        .collect()
}

/// The numbers that use a literal.
fn using(circuit: &Circuit, draft: &Draft) -> Vec<(usize, usize)> {
    let defining = defining_lines(circuit, draft);
    let first = |line: usize| usize::from(defining.binary_search(&line).is_ok());
    // A reset is no use. Other damage may have taken a number away.
    let last = |line: usize| draft.lines[line].len().min(*draft.fields(line).start());
    let lines = 0..draft.lines.len();
    lines
        .flat_map(|line| (first(line)..last(line)).map(move |k| (line, k)))
        .collect()
}

fn out_of_range(random: &mut Random, circuit: &Circuit, draft: &mut Draft) -> Option<Harm> {
    if draft.lines.is_empty() {
        return None;
    }
    let line = random.below(draft.lines.len());
    let k = random.below(draft.lines[line].len());
    draft.lines[line][k] = too_large(random, 2 * circuit.m + 1, 2);
    harm(5, Spot::Number(Slot::Field(line, k), 0))
}

/// A literal that may be used but not defined: 0, odd, or the largest.
fn defines_nothing(random: &mut Random, circuit: &Circuit, draft: &mut Draft) -> Option<Harm> {
    let lines = defining_lines(circuit, draft);
    if lines.is_empty() {
        return None;
    }
    let line = *random.pick(&lines);
    let odd = 2 * random.below(circuit.m as usize + 1) as u64 + 1;
    let value = *random.pick(&[0, 1, odd, odd, 2 * circuit.m + 1, 2 * circuit.m + 2]);
    draft.lines[line][0] = digits(value);
    harm(5, Spot::Number(Slot::Field(line, 0), 0))
}

/// 5 comes before 6 on one line.
fn out_of_range_and_second(random: &mut Random, circuit: &Circuit, draft: &mut Draft) -> Option<Harm> {
    let Harm {
        spot: Spot::Number(Slot::Field(line, _), _),
        ..
    } = second_definition(random, circuit, draft)?
    else {
        return None;
    };
    let last = draft.lines[line].len() - 1;
    draft.lines[line][last] = too_large(random, 2 * circuit.m + 1, 2);
    harm(5, Spot::Number(Slot::Field(line, last), 0))
}

/// 1 comes before 5 on one line.
fn out_of_range_and_marked(random: &mut Random, circuit: &Circuit, draft: &mut Draft) -> Option<Harm> {
    let Harm {
        spot: Spot::Number(slot @ Slot::Field(line, _), _),
        ..
    } = out_of_range(random, circuit, draft)?
    else {
        return None;
    };
    let end = line_end(draft, slot);
    draft.lines[line].last_mut()?.push(*random.pick(b"\r\tx~"));
    harm(1, end)
}

pub fn second_definition(random: &mut Random, circuit: &Circuit, draft: &mut Draft) -> Option<Harm> {
    let lines = defining_lines(circuit, draft);
    if lines.len() < 2 {
        return None;
    }
    let second = random.between(1, lines.len() - 1);
    let first = random.below(second);
    let (line, name) = (lines[second], draft.lines[lines[first]][0].clone());
    let fields = &mut draft.lines[line];
    let old = std::mem::replace(&mut fields[0], name.clone());
    // A latch that starts as x is to stay one.
    if draft.latches.contains(&line) && fields.get(2) == Some(&old) {
        fields[2] = name;
    }
    harm(6, Spot::Number(Slot::Field(line, 0), 0))
}

/// One to three uses of variables without a definition; the least is named.
pub fn undefined(random: &mut Random, circuit: &Circuit, draft: &mut Draft) -> Option<Harm> {
    let places = using(circuit, draft);
    undefined_at(random, circuit, draft, places)
}

/// The same in bad states and constraints alone.
pub fn undefined_bad(random: &mut Random, circuit: &Circuit, draft: &mut Draft) -> Option<Harm> {
    let first = draft.latches.end + circuit.outputs.len();
    let lines = first..first + circuit.bads.len() + circuit.constraints.len();
    let places = lines.filter(|&line| line < draft.lines.len()).map(|line| (line, 0));
    undefined_at(random, circuit, draft, places.collect())
}

fn undefined_at(
    random: &mut Random,
    circuit: &Circuit,
    draft: &mut Draft,
    mut places: Vec<(usize, usize)>,
) -> Option<Harm> {
    let defined: std::collections::HashSet<usize> = circuit.defining().map(|(literal, _)| variable(literal)).collect();
    let free: Vec<usize> = (1..=circuit.m as usize)
        .rev()
        .filter(|v| !defined.contains(v))
        .take(50)
        .collect();
    if free.is_empty() || places.is_empty() {
        return None;
    }
    random.shuffle(&mut places);
    let mut least = usize::MAX;
    for (line, k) in places.into_iter().take(random.between(1, 3)) {
        let v = *random.pick(&free);
        least = least.min(v);
        draft.lines[line][k] = digits(literal(v) + random.below(2) as u32);
    }
    harm(7, Spot::Exactly(least))
}

/// 7 comes before 8.
pub fn undefined_and_cycle(random: &mut Random, circuit: &Circuit, draft: &mut Draft) -> Option<Harm> {
    cycle(random, circuit, draft)?;
    undefined(random, circuit, draft)
}

/// A gate and the side whose literal makes it depend on itself, at once or through those that depend on it, and the circuit with it.
pub fn closed(random: &mut Random, circuit: &Circuit) -> (usize, usize, Circuit) {
    let a = circuit.gates.len();
    let depends = naive::depends(circuit);
    let gate = random.below(a);
    let mut ends: Vec<usize> = (0..a).filter(|&k| depends[k][gate]).collect();
    if ends.is_empty() || random.once_in(4) {
        ends.push(gate);
    }
    let end = *random.pick(&ends);
    let side = random.between(1, 2);
    let mut cyclic = circuit.clone();
    cyclic.gates[gate][side] = circuit.gates[end][0] + random.below(2) as u32;
    (gate, side, cyclic)
}

/// A gate is made to depend on itself.
pub fn cycle(random: &mut Random, circuit: &Circuit, draft: &mut Draft) -> Option<Harm> {
    let a = circuit.gates.len();
    let first_line = draft.lines.len().checked_sub(a)?;
    // The closure is slow, and a long file shows nothing more.
    if a == 0 || a > 300 || draft.is_binary() {
        return None;
    }
    let (gate, side, cyclic) = closed(random, circuit);
    *draft.lines[first_line + gate].get_mut(side)? = digits(cyclic.gates[gate][side]);
    harm(8, Spot::Exactly(naive::first_on_cycle(&cyclic)?))
}
