//! Runs of the programs, each made from a seed and a number: what `plan.in` is, and what standard input.

mod cards;
mod input;
mod plan;
mod turns;

use crate::aiger::programs::{answer, opened, Program};
use crate::aiger::{Circuit, Refusal};
use crate::random::Random;
use std::ops::Range;
use turns::{round, Turn};

#[derive(Debug)]
pub enum Plan {
    File(Vec<u8>),
    Missing,
    Folder,
}

#[derive(Debug)]
pub enum Input {
    File(Vec<u8>),
    /// Comes in pieces.
    Pipe(Vec<u8>),
    Folder,
    /// A file opened to be written only.
    ForWriting,
    Closed,
}

impl Plan {
    /// None if it can't be read.
    pub fn bytes(&self) -> Option<&[u8]> {
        match self {
            Plan::File(bytes) => Some(bytes),
            Plan::Missing | Plan::Folder => None,
        }
    }
}

impl Input {
    /// None if it can't be read.
    pub fn bytes(&self) -> Option<&[u8]> {
        match self {
            Input::File(bytes) | Input::Pipe(bytes) => Some(bytes),
            Input::Folder | Input::ForWriting | Input::Closed => None,
        }
    }
}

pub struct Run {
    pub program: Program,
    pub plan: Plan,
    pub input: Input,
    /// The circuit of a plan that is not refused.
    pub circuit: Option<Circuit>,
    /// What is written, or the refusal.
    pub answer: Result<Vec<u8>, Refusal>,
    /// The refusal, where the way the plan was made shows it.
    pub foretold: Option<Refusal>,
}

/// Keeps the numbers of runs apart from those of other cases.
const APART: u64 = 1 << 62;

/// There is one round of turns of each program for so many cases.
const SHARE: u64 = 3200;

/// The numbers of the runs that there are beside so many cases.
pub fn numbers(cases: u64) -> Range<u64> {
    let turns = Program::ALL.map(|program| round(program).len() as u64);
    0..cases / SHARE * turns.iter().sum::<u64>()
}

/// The program and the turn of a run: a round of each program comes after that of the one before.
fn turn(number: u64) -> (Program, Turn) {
    let all: Vec<(Program, Turn)> = Program::ALL
        .into_iter()
        .flat_map(|program| round(program).into_iter().map(move |turn| (program, turn)))
        .collect();
    all[(number % all.len() as u64) as usize]
}

pub fn run(seed: u64, number: u64) -> Run {
    let (program, turn) = turn(number);
    let mut random = Random::new(seed, APART | number);
    loop {
        let made = made(&mut random, program, turn);
        // What was made may be too large, or accepted.
        if let Some(run) = made.filter(|run| turn.is_met(run)) {
            return run;
        }
    }
}

fn made(random: &mut Random, program: Program, turn: Turn) -> Option<Run> {
    let (plan, foretold) = plan::plan(random, program, turn)?;
    let circuit = opened(program, plan.bytes()).ok().map(|(_, circuit, _)| circuit);
    if matches!(turn, Turn::Accepted | Turn::Input(_)) && circuit.is_none() {
        return None;
    }
    let read = circuit.as_ref().filter(|_| program.reads_vectors());
    let input = input::input(random, turn, read);
    let run = Run::new(program, plan, input, circuit);
    Some(Run { foretold, ..run })
}

impl Run {
    fn new(program: Program, plan: Plan, input: Input, circuit: Option<Circuit>) -> Run {
        Run {
            answer: answer(program, plan.bytes(), input.bytes()),
            program,
            plan,
            input,
            circuit,
            foretold: None,
        }
    }

    /// A file and nothing to read beside it.
    pub fn of(program: Program, file: &[u8]) -> Run {
        let circuit = opened(program, Some(file)).ok().map(|(_, circuit, _)| circuit);
        Run::new(program, Plan::File(file.to_vec()), Input::Closed, circuit)
    }
}
