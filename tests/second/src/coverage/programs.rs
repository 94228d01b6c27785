//! The answers of the programs' runs.

use super::answered::{Answered, Needed, PER_REFUSAL};
use super::at_least;
use crate::aiger::programs::{Program, LENT, LONGEST};
use crate::aiger::{read, Form, Refusal, Version};
use crate::generate::runs::Run;
use crate::tally::Tally;

/// Each kind of run must have at least so many.
const PER_KIND: u64 = 10;

/// The places of a refusal share its runs. Most files are made as for a reader, whose cases are foretold.
const OF_PROGRAMS: Needed = Needed {
    per_refusal: PER_REFUSAL,
    per_place: PER_REFUSAL / 8,
    foretold: 0,
};

/// What is told of AIGER files is told as often by all programs together, and by each so often.
const SHARED: Needed = Needed {
    per_refusal: PER_REFUSAL / 4,
    ..OF_PROGRAMS
};

/// A run of so many lines has many.
const MANY: usize = 20_000;

#[derive(Default)]
pub struct RunCoverage {
    /// By program.
    answered: [Answered; PROGRAMS],
    traces: [Traces; PROGRAMS],
    /// Accepted by program, in text and in binary.
    forms: [[u64; 2]; PROGRAMS],
    /// Refused by 4 at 5, though the file is read.
    after_reading: u64,
}

const PROGRAMS: usize = Program::ALL.len();

/// The runs of a program that reads vectors, if the plan is accepted.
#[derive(Default)]
struct Traces {
    answered: Answered,
    without_lines: u64,
    without_inputs: u64,
    many_lines: u64,
    /// More than a buffer holds was written.
    in_parts: u64,
}

impl RunCoverage {
    pub fn add(&mut self, run: &Run) {
        let program = run.program as usize;
        let file = run.plan.bytes().unwrap_or_default();
        add(&mut self.answered[program], run);
        self.after_reading += u64::from(after_reading(run, file));
        self.forms[program][super::form(file) as usize] += u64::from(run.answer.is_ok());
        if run.program.reads_vectors() && run.circuit.is_some() {
            self.traces[program].add(run);
        }
    }

    /// Prints the summary and counts what was missed.
    pub fn report(&self, tally: &mut Tally) {
        for program in Program::ALL {
            self.report_program(tally, program);
        }
        for (number, _) in Program::Converter.told_of_files() {
            let count = self.answered.iter().map(|answered| answered.refused(*number)).sum();
            tally.check(&format!("programs, refusal {number}"), at_least(count, PER_REFUSAL));
        }
        println!("refused by 4 at 5 after reading: {}", self.after_reading);
        tally.check("4 at 5 after reading", at_least(self.after_reading, PER_REFUSAL / 4));
    }

    fn report_program(&self, tally: &mut Tally, program: Program) {
        let name = program.name();
        let answered = &self.answered[program as usize];
        answered.report_accepted(tally, name);
        answered.report_refused(tally, name, program.told_of_files(), SHARED);
        answered.report_refused(tally, name, program.told_of_plan(), OF_PROGRAMS);
        if program != Program::Filer {
            for (form, count) in [Form::Text, Form::Binary].into_iter().zip(self.forms[program as usize]) {
                println!("{name}: accepted, {form:?}: {count}");
                tally.check(
                    &format!("{name}, accepted, {form:?}"),
                    at_least(count, answered.cases / 12),
                );
            }
        }
        if program.reads_vectors() {
            self.traces[program as usize].report(tally, program);
        }
    }
}

fn add(answered: &mut Answered, run: &Run) {
    match &run.answer {
        Ok(_) => answered.accept(run.circuit.as_ref().is_some_and(|circuit| !circuit.gates.is_empty())),
        Err(refusal) => answered.refuse(refusal, run.foretold.is_some()),
    }
}

fn after_reading(run: &Run, file: &[u8]) -> bool {
    let short = Err(Refusal { number: 4, place: 5 });
    run.program != Program::Filer && run.answer == short && read::read(file, &LENT, Version::V19).is_ok()
}

impl Traces {
    fn add(&mut self, run: &Run) {
        add(&mut self.answered, run);
        let (Ok(written), Some(circuit)) = (&run.answer, &run.circuit) else {
            return;
        };
        let input = run.input.bytes().unwrap_or_default();
        let lines = input.iter().filter(|&&byte| byte == b'\n').count();
        self.without_lines += u64::from(lines == 0);
        self.without_inputs += u64::from(circuit.inputs.is_empty() && lines > 0);
        self.many_lines += u64::from(lines >= MANY);
        self.in_parts += u64::from(written.len() > LONGEST);
    }

    fn report(&self, tally: &mut Tally, program: Program) {
        let name = program.name();
        for &(number, _) in program.told_of_input() {
            let count = self.answered.refused(number);
            // The others are told of plans too.
            let needed = if number == 12 { PER_REFUSAL } else { PER_REFUSAL / 2 };
            println!("{name}: standard input refused by {number}: {count}");
            tally.check(&format!("{name}, standard input, {number}"), at_least(count, needed));
        }
        let mut kinds = vec![
            ("without lines", self.without_lines),
            ("without inputs", self.without_inputs),
            ("many lines", self.many_lines),
        ];
        if program == Program::Tracer {
            kinds.push(("written in parts", self.in_parts));
        }
        for (kind, count) in kinds {
            println!("{name}: {kind}: {count}");
            tally.check(&format!("{name}, {kind}"), at_least(count, PER_KIND));
        }
    }
}
