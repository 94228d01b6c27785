//! The calls on tables, each on cases of its own.

use crate::aiger::{step, Refusal};
use crate::compare::tables::{after, ask, circuit, judge, outcome};
use crate::coverage::calls::CallCoverage;
use crate::ensure;
use crate::generate::given::turns::round;
use crate::generate::given::{self, TablesCase};
use crate::library::{Call, Lent, Library};
use crate::memory::Memory;
use crate::options::Options;
use crate::properties::values::masked;
use crate::run_ahead;
use crate::tally::Tally;

/// Each call has one round of turns for so many files.
const SHARE: u64 = 400;

pub fn run(tally: &mut Tally, options: &Options, library: Option<&dyn Library>) {
    for call in Call::ALL {
        let mut coverage = CallCoverage::new(call);
        let cases = options.cases / SHARE * round(call).len() as u64;
        let begun = (0..cases).map(|number| {
            let next = begin(options, library, call, number);
            coverage.add(&next.case, &next.expected);
            next
        });
        run_ahead(begun, |begun| begun.finish(tally, options, library));
        coverage.report(tally);
    }
}

pub fn only(tally: &mut Tally, options: &Options, library: Option<&dyn Library>, call: Call, number: u64) {
    begin(options, library, call, number).finish(tally, options, library);
}

/// A case that the library is asked about.
struct Begun {
    call: Call,
    number: u64,
    case: TablesCase,
    expected: Lent,
    /// What another call must leave, which is asked at once.
    also: Option<Lent>,
}

fn begin(options: &Options, library: Option<&dyn Library>, call: Call, number: u64) -> Begun {
    let case = given::case(call, options.seed, number);
    let expected = after(call, &case.lent);
    if let Some(library) = library {
        ask(library, call, &case.lent);
    }
    let also = also(call, &case.lent, &expected).map(|(call, lent)| {
        if let Some(library) = library {
            ask(library, call, &lent);
        }
        after(call, &lent)
    });
    Begun {
        call,
        number,
        case,
        expected,
        also,
    }
}

/// A call that must agree: a step with x at every place that an explanation does not mark, and one that the plain engine
/// makes too.
fn also(call: Call, before: &Lent, after: &Lent) -> Option<(Call, Lent)> {
    match (call, outcome(after)) {
        (Call::Explain, Ok(())) => Some((Call::Step, unmarked(before, after))),
        (Call::StepPlain, Err(Refusal { number: 24, .. })) => None,
        (Call::StepPlain, _) => Some((Call::Step, before.clone())),
        _ => None,
    }
}

fn unmarked(before: &Lent, after: &Lent) -> Lent {
    let [state, input, marks] = [&before.bytes[0], &before.bytes[1], &after.bytes[2]].map(Memory::lent);
    let [_, _, _, outputs, ..] = *before.counts.lent() else {
        unreachable!("seven counts");
    };
    let [state, input] = masked(&marks[..state.len() + input.len()], state, input);
    Lent {
        numbers: Vec::new(),
        bytes: vec![
            Memory::around(&state, JUNK),
            Memory::around(&input, JUNK),
            Memory::junk(outputs, JUNK),
        ],
        ..before.clone()
    }
}

const JUNK: u64 = 1 << 33 | 1;

impl Begun {
    fn finish(self, tally: &mut Tally, options: &Options, library: Option<&dyn Library>) {
        let name = format!("{} case {}", self.call.name(), self.number);
        let outcome = self.check(library);
        if let (Err(why), true) = (&outcome, tally.tells()) {
            let told = format!(
                "{why}\nforetold {:?}\n{:?}\nexpected {:?}\n",
                self.case.promise, self.case.lent, self.expected
            );
            options.keep(&name.replace(' ', "-"), &[("txt", told.as_bytes())]);
        }
        tally.check(&format!("seed {} {name}", options.seed), outcome);
    }

    fn check(&self, library: Option<&dyn Library>) -> Result<(), String> {
        // First of all, since the replies wait to be taken.
        let judged = library.map_or(Ok(()), |library| judge(library, &self.expected));
        let also = self.also.as_ref().zip(library);
        let also = also.map_or(Ok(()), |(expected, library)| judge(library, expected));
        judged?;
        also.map_err(|why| format!("another call: {why}"))?;
        self.agrees()?;
        let given = outcome(&self.expected);
        if let Some(promise) = &self.case.promise {
            ensure!(*promise == given, "foretold {promise:?}, given {given:?}");
        }
        if let (Ok(()), Some(file)) = (given, &self.case.file) {
            let written = self.expected.answer.lent()[2] as usize;
            let given = &self.expected.bytes[1].lent()[..written];
            ensure!(given == file, "foretold {file:02x?}, written {given:02x?}");
        }
        Ok(())
    }

    /// Whether the other call says what it must.
    fn agrees(&self) -> Result<(), String> {
        let Some(step) = &self.also else {
            return Ok(());
        };
        if self.call == Call::StepPlain {
            ensure!(*step == self.expected, "the stepper leaves {step:?}");
            return Ok(());
        }
        let (lent, output) = (&self.case.lent, self.case.lent.number() as usize);
        let values = step::values(&circuit(lent), lent.bytes[0].lent(), lent.bytes[1].lent());
        let value = step::value(&values, lent.tables[2].lent()[output]);
        let again = step.bytes[2].lent()[output];
        ensure!(
            value == again,
            "the output is {value}, and {again} without what is not marked"
        );
        Ok(())
    }
}
