//! Random well-formed circuits of many shapes.

mod gates;

use crate::aiger::{literal, negation, variable, Circuit, Form, MOST};
use crate::random::Random;

/// The size and kind of a circuit to be made.
#[derive(Default)]
pub struct Size {
    pub i: usize,
    pub l: usize,
    pub o: usize,
    pub a: usize,
    /// Variables without a definition; only the text form has them.
    pub unused: usize,
    /// Bad states and constraints.
    pub b: usize,
    pub c: usize,
    /// Whether some resets are not 0.
    pub starts: bool,
}

pub fn size(random: &mut Random, form: Form) -> Size {
    let mut size = plain_size(random, form);
    // Every third circuit is one of 2007.
    if !random.once_in(3) {
        size.b = random.below(5);
        size.c = random.below(4);
        size.starts = !random.once_in(3);
    }
    size
}

/// Without bad states, constraints and resets.
fn plain_size(random: &mut Random, form: Form) -> Size {
    match random.below(3000) {
        0..=1 => extreme(random, form),
        2..=60 => wide(random, form),
        61..=80 => up_to(random, 4000),
        81..=300 => up_to(random, 300),
        301..=1300 => up_to(random, 40),
        _ => up_to(random, 6),
    }
}

fn up_to(random: &mut Random, most: usize) -> Size {
    let few = most.min(8);
    Size {
        i: random.below(few + 1),
        l: random.below(few + 1),
        o: random.below(few + 1),
        a: if random.once_in(12) { 0 } else { random.between(1, most) },
        unused: if random.once_in(2) { random.below(few + 1) } else { 0 },
        ..Size::default()
    }
}

/// So many variables below the gates that differences take three bytes.
fn wide(random: &mut Random, form: Form) -> Size {
    let sources = random.between(8_190, 12_000);
    let l = random.below(4);
    match form {
        Form::Binary => Size {
            i: sources,
            l,
            o: random.below(5),
            a: random.between(1, 12),
            ..Size::default()
        },
        Form::Text => Size {
            i: random.below(5),
            l,
            o: random.below(5),
            a: random.between(1, 12),
            unused: sources,
            ..Size::default()
        },
    }
}

/// M as large as it may be.
fn extreme(random: &mut Random, form: Form) -> Size {
    let [l, o, a] = [random.below(4), random.below(5), random.between(1, 9)];
    let rest = MOST as usize - l - a;
    match form {
        Form::Binary => Size {
            i: rest,
            l,
            o,
            a,
            ..Size::default()
        },
        Form::Text => Size {
            i: 3,
            l,
            o,
            a,
            unused: rest - 3,
            ..Size::default()
        },
    }
}

/// A circuit in binary order; for the text form then renamed, reordered or both.
pub fn circuit(random: &mut Random, form: Form, size: &Size) -> Circuit {
    let mut circuit = in_order(random, size);
    if form == Form::Text {
        circuit.m += size.unused as u64;
        if !random.once_in(4) {
            let m = circuit.m as usize;
            circuit = rename(random, &circuit, m);
        }
        arrange(random, &mut circuit.gates);
    }
    circuit
}

fn in_order(random: &mut Random, size: &Size) -> Circuit {
    let sources = size.i + size.l;
    let defined = sources + size.a;
    let gates = gates::gates(random, sources, size.a);
    let latches = (size.i + 1..=sources).map(|v| [literal(v), next(random, v, defined)]);
    let latches: Vec<[u32; 2]> = latches.collect();
    Circuit {
        m: defined as u64,
        inputs: (1..=size.i).map(literal).collect(),
        outputs: (0..size.o).map(|_| any_literal(random, defined)).collect(),
        bads: (0..size.b).map(|_| any_literal(random, defined)).collect(),
        constraints: (0..size.c).map(|_| constraint(random, defined)).collect(),
        resets: resets(random, size.starts, &latches),
        latches,
        gates,
    }
}

/// Often true: literals chosen at random are seldom 1 together.
fn constraint(random: &mut Random, defined: usize) -> u32 {
    if random.once_in(2) {
        1
    } else {
        any_literal(random, defined)
    }
}

/// What each latch starts with.
fn resets(random: &mut Random, some: bool, latches: &[[u32; 2]]) -> Vec<u32> {
    let mut reset = |own: u32| if some { *random.pick(&[0, 1, own]) } else { 0 };
    latches.iter().map(|latch| reset(latch[0])).collect()
}

/// A literal of a variable up to `last`, constants included.
fn any_literal(random: &mut Random, last: usize) -> u32 {
    random.below(2 * last + 2) as u32
}

/// A next state; every fourth latch feeds itself.
fn next(random: &mut Random, current: usize, defined: usize) -> u32 {
    match random.below(8) {
        0 => literal(current),
        1 => negation(literal(current)),
        _ => any_literal(random, defined),
    }
}

/// The same circuit with other numbers up to `m` for its defined variables.
pub fn rename(random: &mut Random, circuit: &Circuit, m: usize) -> Circuit {
    let defined: Vec<usize> = circuit.defining().map(|(literal, _)| variable(literal)).collect();
    let mut names = vec![0; circuit.m as usize + 1];
    for (&old, new) in defined.iter().zip(numbers(random, defined.len(), m)) {
        names[old] = new;
    }
    let name = |old: u32| literal(names[variable(old)]) + old % 2;
    let gates = circuit.gates.iter().map(|gate| gate.map(name)).collect();
    circuit.renamed(name, m as u64, gates)
}

/// So many different numbers from 1 to `m`.
fn numbers(random: &mut Random, many: usize, m: usize) -> Vec<usize> {
    if m < 20_000 {
        let mut all: Vec<usize> = (1..=m).collect();
        random.shuffle(&mut all);
        all.truncate(many);
        all
    } else {
        // Shuffling all would be slow for the few that are needed; they are spread from the top instead.
        let stride = m / many.max(1);
        (0..many).map(|k| m - k * stride).collect()
    }
}

/// Puts gates in another order and exchanges right sides.
fn arrange(random: &mut Random, gates: &mut [[u32; 3]]) {
    match random.below(4) {
        0 => {}
        1 => gates.reverse(),
        2 => random.shuffle(gates),
        // Only the first gates go last: the hub of a star, the start of a chain.
        _ => gates.rotate_left(gates.len().min(2)),
    }
    exchange_sides(random, gates);
}

/// Of some gates.
pub fn exchange_sides(random: &mut Random, gates: &mut [[u32; 3]]) {
    for gate in gates {
        if random.once_in(2) {
            gate.swap(1, 2);
        }
    }
}
