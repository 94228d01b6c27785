//! The programs: from `plan.in` and standard input to every byte that they write.

use super::calls::{are_values, few_gates, on_cards};
use super::{
    cards, convert, read, reduce, refuse, report, step, tables, write, Circuit, Form, Lengths, Refusal, Version,
};
use crate::library::Told;

#[derive(Clone, Copy, Debug, PartialEq, Eq)]
pub enum Program {
    Converter,
    Reducer,
    Tracer,
    Reporter,
    Comparer,
    Filer,
    Carder,
}

impl Program {
    pub const ALL: [Program; 7] = [
        Program::Converter,
        Program::Reducer,
        Program::Tracer,
        Program::Reporter,
        Program::Comparer,
        Program::Filer,
        Program::Carder,
    ];

    pub fn name(self) -> &'static str {
        match self {
            Program::Converter => "converter",
            Program::Reducer => "reducer",
            Program::Tracer => "tracer",
            Program::Reporter => "reporter",
            Program::Comparer => "comparer",
            Program::Filer => "filer",
            Program::Carder => "carder",
        }
    }

    /// Whether it reads vectors from standard input.
    pub fn reads_vectors(self) -> bool {
        matches!(self, Program::Tracer | Program::Reporter | Program::Comparer)
    }

    /// What it can tell of `plan.in` as all programs do that read AIGER files. 4 at 7 is not among it, since table 2 is too
    /// short before.
    pub fn told_of_files(self) -> &'static [Told] {
        match self {
            Program::Filer => &[],
            _ => OF_FILES,
        }
    }

    /// What it can tell of `plan.in` beside that. 11 is not among it where lines are written or cards are, since what is
    /// lent for tables is too short before.
    pub fn told_of_plan(self) -> &'static [Told] {
        match self {
            Program::Converter | Program::Reducer => &[(11, &[])],
            Program::Tracer => &[],
            Program::Reporter => &[(4, &[6])],
            Program::Comparer => &[(24, &[])],
            Program::Filer => OF_CARDS,
            Program::Carder => &[(15, &[0]), (19, &[0])],
        }
    }

    /// What it can tell of standard input.
    pub fn told_of_input(self) -> &'static [Told] {
        if self.reads_vectors() {
            &[(14, &[0]), (13, &[65_536]), (1, &[]), (12, &[2])]
        } else {
            &[]
        }
    }
}

/// What the programs can tell of AIGER files.
const OF_FILES: &[Told] = &[
    (14, &[0]),
    (13, &[65_536]),
    (1, &[]),
    (2, &[]),
    (21, &[]),
    (3, &[0]),
    (4, &[1, 2, 3, 4, 5, 8, 9]),
    (5, &[]),
    (6, &[]),
    (16, &[]),
    (9, &[]),
    (10, &[]),
    (7, &[]),
    (8, &[]),
];

const OF_CARDS: &[Told] = &[
    (14, &[0]),
    (13, &[65_536]),
    (1, &[]),
    (18, &[]),
    (2, &[]),
    (3, &[0]),
    (4, &[1, 2, 3, 4, 5]),
    (5, &[2, 3, 4]),
    (15, &[0]),
];

/// The words that each program lends for the tables.
pub const LENT: Lengths = [4096, 4096, 4096, 4096, 16_384, 4096, 4096, 4096];

/// The words that the reporter lends for table 6.
pub const SIXTH: u64 = 16_384;

/// The longest input, and the bytes lent for a written file.
pub const LONGEST: usize = 65_536;

/// All that a program writes. An input is none if it can't be read.
pub fn output(program: Program, plan: Option<&[u8]>, input: Option<&[u8]>) -> Vec<u8> {
    answer(program, plan, input).unwrap_or_else(|refusal| refusal.line().into_bytes())
}

/// Everything is asked of `plan.in` before standard input is looked at.
pub fn answer(program: Program, plan: Option<&[u8]>, input: Option<&[u8]>) -> Result<Vec<u8>, Refusal> {
    let (file, circuit, tail) = opened(program, plan)?;
    let vectors = || vectors(bytes(input)?, circuit.inputs.len());
    let converted = || convert::convert(&circuit).circuit;
    let written = |circuit: &Circuit, form| write::fits(write::file(circuit, form, tail), LONGEST as u64);
    match program {
        Program::Converter => match read::header(file, Version::V19)?.form {
            Form::Text => written(&converted(), Form::Binary),
            Form::Binary => written(&circuit, Form::Text),
        },
        Program::Reducer => written(&reduce::reduce(&converted()), Form::Binary),
        // Both engines give the tracer's lines; that they part, and "differ" is written, can't be.
        Program::Tracer | Program::Comparer => Ok(trace(&converted(), &vectors()?)),
        Program::Reporter => Ok(needles(&converted(), &vectors()?)),
        Program::Filer => written(&circuit, Form::Binary),
        Program::Carder => {
            tables::binary_order(&circuit)?;
            on_cards(&circuit, tail)?;
            write::fits(cards::file(&circuit), LONGEST as u64)
        }
    }
}

/// `plan.in`: the file, its circuit and its tail. Every program goes on to a call that may need more of table 5 than the reader.
pub fn opened(program: Program, plan: Option<&[u8]>) -> Result<(&[u8], Circuit, &[u8]), Refusal> {
    let file = bytes(plan)?;
    if program == Program::Filer {
        return Ok((file, cards::read(file, &LENT)?, &[]));
    }
    let (circuit, tail) = read::read(file, &LENT, Version::V19)?;
    let counts = circuit.counts();
    tables::lengths(&counts.words(), &LENT)?;
    if program == Program::Reporter && 4 * (counts.o + counts.l) > SIXTH {
        return refuse(4, 6);
    }
    if program == Program::Comparer {
        few_gates(&circuit)?;
    }
    Ok((file, circuit, &file[tail..]))
}

/// An input by 14 and 13.
fn bytes(input: Option<&[u8]>) -> Result<&[u8], Refusal> {
    match input {
        None => refuse(14, 0),
        Some(bytes) if bytes.len() > LONGEST => refuse(13, LONGEST),
        Some(bytes) => Ok(bytes),
    }
}

/// The vectors of standard input, of `i` values each: its end by 1, then every line by 12.
fn vectors(input: &[u8], i: usize) -> Result<Vec<&[u8]>, Refusal> {
    if input.last().is_some_and(|&byte| byte != b'\n') {
        return refuse(1, input.len());
    }
    let list = lines(input);
    if list.iter().all(|line| line.len() == i && are_values(line)) {
        Ok(list)
    } else {
        refuse(12, 2)
    }
}

/// Lines without their ends.
pub fn lines(bytes: &[u8]) -> Vec<&[u8]> {
    let lines = bytes.split_inclusive(|&byte| byte == b'\n');
    lines.map(|line| line.strip_suffix(b"\n").unwrap_or(line)).collect()
}

/// A line for each vector of the list: state, inputs, outputs, next state.
pub fn trace(circuit: &Circuit, list: &[&[u8]]) -> Vec<u8> {
    let steps = step::run(circuit, list.iter().copied());
    let lines = steps
        .zip(list)
        .map(|((state, step), &input)| [&state, input, &step.output, &step.next].join(&b' '));
    lines.flat_map(|line| [line, vec![b'\n']].concat()).collect()
}

/// The report of the list, a line for each output and each latch.
pub fn needles(circuit: &Circuit, list: &[&[u8]]) -> Vec<u8> {
    report::lines(circuit, &report::report(circuit, list.iter().copied()))
}
