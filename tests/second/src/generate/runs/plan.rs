//! What stands under the name `plan.in`.

use super::cards::{of_cards, too_much, without_tail};
use super::turns::Turn;
use super::Plan;
use crate::aiger::plain::MOST_GATES;
use crate::aiger::programs::{output, Program, LENT, LONGEST, SIXTH};
use crate::aiger::{literal, Circuit, Form, Refusal};
use crate::generate;
use crate::generate::circuit::{circuit, Size};
use crate::generate::draft::Draft;
use crate::random::Random;

/// Lengths on both sides of what a program reads and writes.
const LONG: [usize; 2] = [LONGEST - 1, LONGEST];
const TOO_LONG: [usize; 3] = [LONGEST + 1, LONGEST + 9, 2 * LONGEST];

/// A plan, and its refusal if that is known from the way it was made.
pub type Made = (Plan, Option<Refusal>);

/// None if nothing was made for the turn.
pub fn plan(random: &mut Random, program: Program, turn: Turn) -> Option<Made> {
    match turn {
        Turn::Plan(14, _) => {
            let plan = if random.once_in(2) { Plan::Missing } else { Plan::Folder };
            Some((plan, Some(Refusal { number: 14, place: 0 })))
        }
        _ if program == Program::Filer => of_cards(random, turn),
        Turn::Plan(13, _) => Some(long(random, &TOO_LONG)),
        Turn::Plan(11, _) => Some(full(random, program, &TOO_LONG)),
        Turn::Plan(4, 6) => Some(many_needles(random, 1)),
        Turn::Plan(4, 5) if random.once_in(2) => Some(to_read_alone(random)),
        Turn::Plan(4, table) => Some((Plan::File(edge(random, Some(table))), None)),
        Turn::Plan(15, _) => Some((Plan::File(without_tail(random, Form::Text)), None)),
        Turn::Plan(19, _) => Some((Plan::File(too_much(random)), None)),
        Turn::Plan(24, _) => Some(teaching(random, 1)),
        Turn::Plan(number, _) => {
            let (file, refusal) = generate::damaged(random, number)?;
            Some((Plan::File(file), Some(refusal)))
        }
        Turn::Accepted | Turn::Input(_) => Some(whole(random, program)),
        Turn::Any => Some(any(random, program)),
    }
}

/// Mostly accepted.
fn whole(random: &mut Random, program: Program) -> Made {
    match (program, random.below(40)) {
        (Program::Carder, 0..=35) => (Plan::File(without_tail(random, Form::Binary)), None),
        (Program::Reporter, 0) => many_needles(random, 0),
        (Program::Comparer, 0..=29) => teaching(random, 0),
        (_, 36) => long(random, &LONG),
        (_, 37) => full(random, program, &LONG),
        (_, 38 | 39) => (Plan::File(edge(random, None)), None),
        _ => (Plan::File(generate::whole(random.word(), 0)[0].clone()), None),
    }
}

fn any(random: &mut Random, program: Program) -> Made {
    match random.below(6) {
        0 => long(random, &LONG),
        1 => full(random, program, &LONG),
        2 => (Plan::File(edge(random, None)), None),
        3 => to_read_alone(random),
        _ => (Plan::File(generate::case(random.word(), 0).file), None),
    }
}

/// As many outputs and latches as table 6 of a report has room for, or one more.
fn many_needles(random: &mut Random, over: usize) -> Made {
    let l = random.between(1, 1500);
    let size = Size {
        l,
        o: SIXTH as usize / 4 - l + over,
        i: random.below(3),
        ..Size::default()
    };
    let form = form(random);
    let circuit = circuit(random, form, &size);
    let mut draft = Draft::new(random, form, &circuit);
    draft.comment.clear();
    let file = draft.layout().file;
    (Plan::File(file), (over == 1).then_some(Refusal { number: 4, place: 6 }))
}

/// As many gates as the plain engine takes or fewer, or more. Whatever standard input is, the plan comes first.
fn teaching(random: &mut Random, over: usize) -> Made {
    let most = MOST_GATES as usize;
    let few = random.below(most + 1);
    let size = Size {
        i: random.below(4),
        l: random.below(4),
        o: random.below(4),
        a: match over {
            0 => *random.pick(&[0, 1, 1, most, most, few, few, few]),
            _ => most + *random.pick(&[1, 1, 2 + few]),
        },
        starts: random.once_in(2),
        ..Size::default()
    };
    let form = form(random);
    let circuit = circuit(random, form, &size);
    let file = Draft::new(random, form, &circuit).layout().file;
    let place = size.a as u64;
    (Plan::File(file), (over == 1).then_some(Refusal { number: 24, place }))
}

pub fn form(random: &mut Random) -> Form {
    *random.pick(&[Form::Text, Form::Binary])
}

/// A well-formed file, or no file at all, that is about as long as it may be.
fn long(random: &mut Random, lengths: &[usize]) -> Made {
    let length = *random.pick(lengths);
    let file = if random.once_in(4) {
        (0..length).map(|_| random.byte()).collect()
    } else {
        let form = form(random);
        let mut draft = some(random, form);
        padded(random, &mut draft, length)
    };
    let foretold = (length > LONGEST).then_some(Refusal {
        number: 13,
        place: LONGEST as u64,
    });
    (Plan::File(file), foretold)
}

/// The file of a draft, brought to a length by its comment. Cut off among new lines it would still be well formed.
fn padded(random: &mut Random, draft: &mut Draft, length: usize) -> Vec<u8> {
    draft.comment = b"c\n".to_vec();
    let mut file = draft.layout().file;
    file.resize(length - 1, *random.pick(b"\n~\0"));
    file.push(b'\n');
    file
}

/// A file that is not too long, and is about as long as it may be once it is written.
fn full(random: &mut Random, program: Program, lengths: &[usize]) -> Made {
    let mut draft = if program == Program::Converter && random.once_in(2) {
        some(random, Form::Binary)
    } else {
        let growing = growing(random);
        Draft::new(random, Form::Text, &growing)
    };
    draft.comment.clear();
    let file = draft.layout().file;
    let writer = match program {
        Program::Converter | Program::Reducer => program,
        _ => Program::Converter,
    };
    let written = output(writer, Some(&file), None).len();
    let length = (*random.pick(lengths)).min(LONGEST + 9);
    let file = padded(random, &mut draft, file.len() + length - written);
    let foretold = (length > LONGEST && program == writer).then_some(Refusal {
        number: 11,
        place: length as u64,
    });
    (Plan::File(file), foretold)
}

/// A draft with inputs. They and left sides are written in text only, so text is longer.
fn some(random: &mut Random, form: Form) -> Draft {
    let size = Size {
        i: random.between(8, 200),
        l: random.below(9),
        o: random.below(200),
        a: random.below(200),
        b: random.below(20),
        c: random.below(20),
        starts: random.once_in(2),
        unused: 0,
    };
    let circuit = circuit(random, form, &size);
    Draft::new(random, form, &circuit)
}

/// A circuit that is longer in binary form: its outputs have one digit, and four once the inputs come before them.
fn growing(random: &mut Random) -> Circuit {
    let i = random.between(500, 600);
    Circuit {
        m: i as u64 + 2,
        inputs: (2..=i + 1).map(literal).collect(),
        latches: vec![[2, random.below(4) as u32]],
        outputs: (0..random.between(3000, 4000))
            .map(|_| random.between(2, 3) as u32)
            .collect(),
        gates: vec![[literal(i + 2), literal(i + 1), random.below(8) as u32]],
        resets: vec![*random.pick(&[0, 1, 2])],
        bads: vec![3],
        constraints: Vec::new(),
    }
}

/// A file with one table on the line of what the programs lend; one word beyond it if a table is named.
fn edge(random: &mut Random, short: Option<u64>) -> Vec<u8> {
    let form = form(random);
    let mut size = Size {
        i: random.below(5),
        l: random.below(5),
        o: random.below(5),
        a: random.below(9),
        b: random.below(3),
        c: random.below(3),
        starts: random.once_in(2),
        unused: 0,
    };
    let over = usize::from(short.is_some());
    match short.unwrap_or(*random.pick(&[1, 2, 3, 4, 5, 8, 9, 0])) {
        1 => size.i = LENT[0] as usize + over,
        2 => size.l = LENT[1] as usize / 2 + over,
        3 => size.o = LENT[2] as usize + over,
        4 => size.a = LENT[3] as usize / 3 + over,
        5 => scratch(random, form, &mut size, over),
        8 => size.b = LENT[6] as usize + over,
        9 => size.c = LENT[7] as usize + over,
        // Lines of a power of two fill buffers and inputs without a rest.
        _ => size.i = (1 << random.between(1, 12)) - 1,
    }
    let circuit = circuit(random, form, &size);
    Draft::new(random, form, &circuit).layout().file
}

/// A binary file that table 5 is long enough to read and too short to work on. What a reader refuses comes first.
fn to_read_alone(random: &mut Random) -> Made {
    let size = Size {
        i: LENT[0] as usize - random.below(5),
        l: random.below(5),
        o: random.below(200),
        a: random.between(8, 40),
        b: random.below(3),
        c: random.below(3),
        starts: random.once_in(2),
        unused: 0,
    };
    let circuit = circuit(random, Form::Binary, &size);
    let mut draft = Draft::new(random, Form::Binary, &circuit);
    draft.comment.clear();
    let mut file = draft.layout().file;
    if random.once_in(2) {
        return (Plan::File(file), Some(Refusal { number: 4, place: 5 }));
    }
    let place = file.len() as u64;
    file.push(b'?');
    (Plan::File(file), Some(Refusal { number: 1, place }))
}

/// Table 5 full, or one word too short: 4 x (M + 1) + O + B + C.
fn scratch(random: &mut Random, form: Form, size: &mut Size, over: usize) {
    let fours = random.below(400);
    size.o = random.below(4 * fours + over + 1);
    size.b = random.below(4 * fours + over - size.o + 1);
    size.c = 4 * fours + over - size.o - size.b;
    let m = LENT[4] as usize / 4 - 1 - fours;
    let rest = m - size.i - size.l - size.a;
    match form {
        Form::Text => size.unused = rest,
        Form::Binary => size.i += rest,
    }
}
