//! The second program: makes cases, reads them with an implementation of its own, and compares the library's
//! answers with that. Without the library it runs only the checks of itself.

#![forbid(unsafe_code)]

mod aiger;
mod cards;
mod compare;
mod coverage;
mod desk;
mod every_allowance;
mod every_byte;
mod examples;
mod faults;
mod generate;
mod large;
mod library;
mod memory;
mod naive;
mod options;
mod programs;
mod properties;
mod random;
mod remote;
mod spelling;
mod tally;
mod trips;
mod wire;
mod worked;

use aiger::{read, Version};
use coverage::Coverage;
use generate::{Answers, Case};
use library::Library;
use options::Options;
use programs::Programs;
use random::Random;
use std::collections::VecDeque;
use std::panic::{catch_unwind, AssertUnwindSafe};
use std::process::ExitCode;
use tally::Tally;

fn main() -> ExitCode {
    let tally = match compared() {
        Ok(tally) => tally,
        Err(why) => {
            println!("{why}\n0 passed, 1 failed");
            return ExitCode::FAILURE;
        }
    };
    println!("{} passed, {} failed", tally.passed, tally.failed);
    if tally.failed == 0 {
        ExitCode::SUCCESS
    } else {
        ExitCode::FAILURE
    }
}

fn compared() -> Result<Tally, String> {
    let options = Options::from_arguments()?;
    if let Some(path) = options.vectors {
        std::fs::write(path, worked::output()?).map_err(|error| error.to_string())?;
        return Ok(Tally::default());
    }
    let remote = remote::library()?;
    let programs = programs::programs()?;
    let library = remote.as_ref().map(|remote| remote as &dyn Library);
    println!(
        "seed {}, {}, {}",
        options.seed,
        library.map_or("no library", |_| "compared with the library"),
        programs.as_ref().map_or("no programs", |_| "and with the programs")
    );
    let mut tally = Tally::default();
    match (options.run, options.only, options.call) {
        (Some(number), _, _) => programs::only(&mut tally, &options, programs.as_ref(), number),
        (_, Some(number), Some(call)) => desk::only(&mut tally, &options, library, call, number),
        (_, Some(number), None) => begin(&options, number, library).finish(&mut tally, &options, library),
        (_, None, _) => all(&mut tally, &options, library, programs.as_ref()),
    }
    if let Some(remote) = remote {
        tally.check("the server's end", remote.end());
    }
    Ok(tally)
}

fn all(tally: &mut Tally, options: &Options, library: Option<&dyn Library>, programs: Option<&Programs>) {
    options::forget_failures();
    examples::run(tally, library);
    worked::run(tally);
    faults::run(tally, options.seed);
    large::run(tally, library);
    let mut coverage = Coverage::default();
    let begun = (0..options.cases).map(|number| {
        let next = begin(options, number, library);
        coverage.add(&next.case, &next.answers);
        next
    });
    run_ahead(begun, |begun| begun.finish(tally, options, library));
    coverage.report(tally);
    desk::run(tally, options, library);
    every_allowance::run(tally, options.seed, library);
    cards::run(tally, options, library);
    if let Some(library) = library {
        every_byte::run(tally, library);
        trips::run(tally, options, library);
    }
    programs::run(tally, options, programs);
}

/// So many cases are made while the library answers for the first of them.
const AHEAD: usize = 100;

/// Finishes each case when so many others have begun.
fn run_ahead<T>(cases: impl Iterator<Item = T>, mut finish: impl FnMut(T)) {
    let mut begun = VecDeque::new();
    for case in cases {
        begun.push_back(case);
        if begun.len() > AHEAD {
            finish(begun.pop_front().expect("just pushed"));
        }
    }
    begun.into_iter().for_each(finish);
}

/// A case that the library is asked about, unless it failed already.
struct Begun {
    number: u64,
    case: Case,
    answers: Answers,
    outcome: Result<(), String>,
}

/// One case, which can be made again from the seed and its number.
fn begin(options: &Options, number: u64, library: Option<&dyn Library>) -> Begun {
    let case = generate::case(options.seed, number);
    let answers = Version::ALL.map(|version| read::read(&case.file, &case.lengths, version));
    // A source apart from the generator's, so that a change of one leaves the other's cases as they are.
    let mut random = Random::new(!options.seed, number);
    let checked = catch_unwind(AssertUnwindSafe(|| properties::check(&case, &answers, &mut random)));
    let outcome = checked.unwrap_or_else(|_| Err("panicked".to_string()));
    if let (Ok(()), Some(library)) = (&outcome, library) {
        compare::ask(library, &case.file, &case.lengths, case.junk);
    }
    Begun {
        number,
        case,
        answers,
        outcome,
    }
}

impl Begun {
    fn finish(self, tally: &mut Tally, options: &Options, library: Option<&dyn Library>) {
        let Begun {
            number,
            case,
            answers,
            mut outcome,
        } = self;
        if let (Ok(()), Some(library)) = (&outcome, library) {
            outcome = compare::judge(library, &case.file, case.junk, &answers);
        }
        if let (Err(why), true) = (&outcome, tally.tells()) {
            let told = format!(
                "lent {:?}, filled from {}\nforetold {:?}\n{why}\n",
                case.lengths, case.junk, case.promises
            );
            options.keep(
                &format!("case-{number}"),
                &[("file", &case.file), ("txt", told.as_bytes())],
            );
        }
        tally.check(&format!("seed {} case {number}", options.seed), outcome);
    }
}
