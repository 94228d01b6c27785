//! Kinds of cases that a call must have had.

mod cards;
mod fillings;
mod marks;
mod plain;
mod reports;
mod rows;
mod sides;

use super::at_least;
use crate::aiger::{apart, with_scratch, Circuit, Counts, Refusal, CIRCUIT, TABLES};
use crate::compare::tables::{circuit, outcome};
use crate::library::{Call, Lent};
use crate::tally::Tally;

/// A case, seen after the call.
pub struct Seen<'a> {
    pub call: Call,
    pub before: &'a Lent,
    pub after: &'a Lent,
    pub outcome: Result<Circuit, Refusal>,
}

/// Its name, and which cases are of it.
type Kind = (&'static str, fn(&Seen) -> bool);

/// Of each kind there must be so many cases, of each that is slow so many.
const PER_KIND: u64 = 100;
const PER_SLOW_KIND: u64 = 10;

/// What every call has.
const OF_ALL: &[Kind] = &[
    ("all that is lent exactly long enough", |seen| {
        seen.accepted(|_| seen.lengths() == seen.needed())
    }),
    ("a spare word in each table", |seen| {
        let spare = || seen.lengths().into_iter().zip(seen.needed());
        seen.accepted(|_| spare().all(|(length, needed)| length > needed))
    }),
];

fn of(call: Call) -> Vec<Kind> {
    let own = match call {
        Call::Report => [reports::KINDS, reports::SLOW].concat(),
        Call::Rows => [rows::NUMBERS, rows::KINDS].concat(),
        Call::ReportRows => [rows::NUMBERS, rows::OF_REPORTS].concat(),
        Call::Explain => marks::KINDS.to_vec(),
        Call::StepPlain => plain::KINDS.to_vec(),
        Call::Rewire => sides::KINDS.to_vec(),
        Call::WriteCards => cards::KINDS.to_vec(),
        Call::Witness => fillings::KINDS.to_vec(),
        _ => Vec::new(),
    };
    [OF_ALL, &own].concat()
}

fn is_slow(kind: &str) -> bool {
    reports::SLOW.iter().any(|(slow, _)| *slow == kind)
}

pub struct KindCoverage {
    call: Call,
    kinds: Vec<Kind>,
    counts: Vec<u64>,
    /// The tables that can be too short, and how often each was by one word.
    tables: Vec<u64>,
    one_word_short: [u64; 10],
}

impl KindCoverage {
    pub fn new(call: Call) -> KindCoverage {
        let kinds = of(call);
        KindCoverage {
            call,
            counts: vec![0; kinds.len()],
            kinds,
            tables: TABLES.into_iter().chain(call.sixth().map(|_| 6)).collect(),
            one_word_short: [0; 10],
        }
    }

    pub fn add(&mut self, before: &Lent, after: &Lent) {
        let outcome = outcome(after).map(|()| circuit(before));
        let seen = Seen {
            call: self.call,
            before,
            after,
            outcome,
        };
        for (count, (_, is)) in self.counts.iter_mut().zip(&self.kinds) {
            *count += u64::from(is(&seen));
        }
        if let Err(Refusal { number: 4, place }) = seen.outcome {
            self.one_word_short[place as usize] += u64::from(seen.is_one_word_short(place));
        }
    }

    pub fn report(&self, tally: &mut Tally, name: &str) {
        let kinds = self.kinds.iter().zip(&self.counts);
        let told: Vec<String> = kinds
            .clone()
            .map(|((kind, _), count)| format!("{kind}: {count}"))
            .collect();
        println!("{name}: {}", told.join(", "));
        for ((kind, _), &count) in kinds {
            let needed = if is_slow(kind) { PER_SLOW_KIND } else { PER_KIND };
            tally.check(&format!("{name}, {kind}"), at_least(count, needed));
        }
        println!("{name}: one word too short, by table: {:?}", self.one_word_short);
        let tables = self
            .tables
            .iter()
            .map(|&table| (table, self.one_word_short[table as usize]));
        for (table, count) in tables {
            let name = format!("{name}, table {table} one word too short");
            tally.check(&name, at_least(count, PER_KIND / 2));
        }
    }
}

impl Seen<'_> {
    /// Whether it is accepted and its circuit is so.
    fn accepted(&self, is: impl Fn(&Circuit) -> bool) -> bool {
        self.outcome.as_ref().is_ok_and(is)
    }

    fn refused(&self, number: u64, place: u64) -> bool {
        self.outcome == Err(Refusal { number, place })
    }

    /// How many vectors.
    fn number(&self) -> u64 {
        self.before.number()
    }

    /// The lengths of all tables that are lent, given ones and scratch before those to be written.
    fn lengths(&self) -> Vec<u64> {
        let given = self.before.tables.each_ref().map(|table| table.lent().len() as u64);
        let given = with_scratch(given, self.before.scratch.lent().len() as u64);
        let written = self.before.written.iter().map(|table| table.lent().len() as u64);
        given.into_iter().chain(written).collect()
    }

    /// What the counts ask of them.
    fn needed(&self) -> Vec<u64> {
        let counts = Counts::new(self.before.counts.lent().try_into().expect("seven counts"));
        let words = counts.words();
        let written = match self.before.written.len() {
            0 => Vec::new(),
            1 => vec![(self.call.sixth().expect("it is lent"))(&counts)],
            _ => apart(words).0.to_vec(),
        };
        words.into_iter().chain(written).collect()
    }

    /// Whether the table that 4 names lacks one word.
    fn is_one_word_short(&self, table: u64) -> bool {
        let numbers: &[u64] = if self.before.written.len() == 1 { &[6] } else { &CIRCUIT };
        let numbers = TABLES.iter().chain(numbers);
        let mut all = numbers.zip(self.lengths().into_iter().zip(self.needed()));
        all.any(|(&number, (length, needed))| number == table && length + 1 == needed)
    }
}
