//! Which answers the cases had, so that a generator that misses one counts as failed.

mod answered;
pub mod calls;
pub mod cards;
mod kinds;
pub mod programs;
pub mod vectors;

use crate::aiger::read::words;
use crate::aiger::{Circuit, Form, Refusal, MOST, TABLES};
use crate::generate::{Answers, Case};
use crate::library::Told;
use crate::spelling::Spelling;
use crate::tally::Tally;
use answered::{Answered, Needed, OF_CALLS, PER_REFUSAL};

/// What the reader of 2007 can tell. Bad states and constraints need no words there.
const OF_2007: &[Told] = &[
    (1, &[]),
    (2, &[]),
    (3, &[0]),
    (4, &[1, 2, 3, 4, 5, 7]),
    (5, &[]),
    (6, &[]),
    (7, &[]),
    (8, &[]),
    (9, &[]),
    (10, &[]),
    (16, &[]),
];

/// What that of 1.9 can tell otherwise or more.
const OF_19: &[Told] = &[(4, &TABLES), (21, &[])];

#[derive(Default)]
pub struct Coverage {
    /// By version.
    answered: [Answered; 2],
    /// Accepted with A > 0, in text and in binary.
    with_gates: [u64; 2],
    /// Kinds of accepted files.
    kinds: [u64; KINDS.len()],
    /// Refused by 2 or by 21 at each number of the header.
    counts: [u64; 9],
    properties: [u64; 9],
    /// Tables one word too short, by number, in text and in binary.
    one_word_short: [[u64; 2]; TABLES.len()],
}

/// Kinds of accepted files, and in how many cases there must be one of each.
const KINDS: [(&str, u64); 11] = [
    ("a difference of three bytes", 1000),
    ("tables exactly long enough", 12),
    ("a binary file, table 5 exactly long enough", 12),
    ("the largest M", 30_000),
    ("a reset of 1", 20),
    ("a reset of x", 20),
    ("bad states", 12),
    ("constraints", 12),
    ("bad states and no outputs", 100),
    ("zeros that may be left off", 40),
    ("counts that may be left off", 100),
];

fn kinds(case: &Case, circuit: &Circuit) -> [bool; KINDS.len()] {
    let form = form(&case.file);
    let needed = circuit.counts().words_to_read(form);
    let spelled = Spelling::of(&case.file, circuit.latches.len());
    [
        form == Form::Binary && far(circuit),
        case.lengths == needed,
        form == Form::Binary && case.lengths[4] == needed[4],
        circuit.m == MOST,
        circuit.resets.contains(&1),
        circuit.resets.iter().any(|&reset| reset > 1),
        !circuit.bads.is_empty(),
        !circuit.constraints.is_empty(),
        !circuit.bads.is_empty() && circuit.outputs.is_empty(),
        !spelled.is_shortest(),
        spelled.zero_counts,
    ]
}

/// The form that the second letter names.
pub fn form(file: &[u8]) -> Form {
    match file.get(1) {
        Some(b'i') => Form::Binary,
        _ => Form::Text,
    }
}

impl Coverage {
    pub fn add(&mut self, case: &Case, answers: &Answers) {
        for (version, answer) in answers.iter().enumerate() {
            let foretold = case.promises[version].is_some();
            match answer {
                Ok((circuit, _)) => self.answered[version].accept(!circuit.gates.is_empty()),
                Err(refusal) => self.answered[version].refuse(refusal, foretold),
            }
        }
        match answers {
            [_, Ok((circuit, _))] => {
                self.with_gates[form(&case.file) as usize] += u64::from(!circuit.gates.is_empty());
                for (count, is) in self.kinds.iter_mut().zip(kinds(case, circuit)) {
                    *count += u64::from(is);
                }
            }
            [_, Err(refusal)] => self.add_refused(case, refusal),
        }
    }

    fn add_refused(&mut self, case: &Case, refusal: &Refusal) {
        let number = || {
            let before = &case.file[..refusal.place as usize];
            before.iter().filter(|&&byte| byte == b' ').count() - 1
        };
        match refusal.number {
            2 => self.counts[number()] += 1,
            21 => self.properties[number()] += 1,
            4 => {
                let k = TABLES
                    .iter()
                    .position(|&table| table == refusal.place)
                    .expect("a table");
                let short = case.lengths[k] + 1 == words(&case.file, refusal.place);
                self.one_word_short[k][form(&case.file) as usize] += u64::from(short);
            }
            _ => {}
        }
    }

    /// Prints the summary and counts what was missed.
    pub fn report(&self, tally: &mut Tally) {
        let [old, new] = &self.answered;
        // What a damaged file is to the reader of 2007 the generator leaves open.
        let any = Needed {
            foretold: 0,
            ..OF_CALLS
        };
        old.report(tally, "read2007", OF_2007, any);
        new.report(tally, "read", &[OF_2007, OF_19].concat(), OF_CALLS);
        let cases = new.cases;
        for (form, count) in [Form::Text, Form::Binary].into_iter().zip(self.with_gates) {
            println!("accepted, A > 0, {form:?}: {count}");
            tally.check(&format!("accepted, A > 0, {form:?}"), at_least(count, cases / 12));
        }
        each(tally, "refused by 2 at the number", &self.counts, PER_REFUSAL);
        each(tally, "refused by 21 at the number", &self.properties[7..], PER_REFUSAL);
        for (table, counts) in TABLES.iter().zip(&self.one_word_short) {
            let name = format!("table {table} one word too short, in form");
            each(tally, &name, counts, PER_REFUSAL / 4);
        }
        for ((kind, share), &count) in KINDS.iter().zip(&self.kinds) {
            println!("accepted with {kind}: {count}");
            tally.check(&format!("accepted with {kind}"), at_least(count, cases / share));
        }
    }
}

/// Prints the counts of a kind and sees that each is large enough.
fn each(tally: &mut Tally, name: &str, counts: &[u64], needed: u64) {
    println!("{name}: {counts:?}");
    for (k, &count) in counts.iter().enumerate() {
        tally.check(&format!("{name} {k}"), at_least(count, needed));
    }
}

fn far(circuit: &Circuit) -> bool {
    circuit
        .gates
        .iter()
        .any(|[lhs, rhs0, rhs1]| lhs - rhs0 >= 1 << 14 || rhs0 - rhs1 >= 1 << 14)
}

pub fn at_least(count: u64, needed: u64) -> Result<(), String> {
    if count >= needed {
        Ok(())
    } else {
        Err(format!("{count} cases, {needed} needed"))
    }
}
