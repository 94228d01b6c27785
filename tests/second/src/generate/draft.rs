//! A file in pieces that can be damaged one by one, and where each piece comes to stand.

mod tail;

use crate::aiger::{Circuit, Form};
use crate::random::Random;
use std::ops::{Range, RangeInclusive};
pub use tail::{lists, symbol};

#[derive(Clone, Debug)]
pub struct Draft {
    pub name: Vec<u8>,
    /// M I L O A, perhaps B C J F.
    pub counts: Vec<Vec<u8>>,
    /// The numbers of each line after the header.
    pub lines: Vec<Vec<Vec<u8>>>,
    /// Those of them that are a latch's.
    pub latches: Range<usize>,
    /// Two for each gate of a binary file.
    pub differences: Vec<Vec<u8>>,
    /// Without their new lines.
    pub symbols: Vec<Vec<u8>>,
    /// From the "c" to the end.
    pub comment: Vec<u8>,
}

/// The file of a draft and the places of its pieces.
#[derive(Default)]
pub struct Layout {
    pub file: Vec<u8>,
    pub counts: Vec<usize>,
    pub fields: Vec<Vec<usize>>,
    pub differences: Vec<usize>,
    pub tail: usize,
    pub symbols: Vec<usize>,
    pub comment: usize,
}

fn digits(number: impl ToString) -> Vec<u8> {
    number.to_string().into_bytes()
}

/// The numbers of each latch's line, without those before the `from`-th and without a reset of 0.
fn latches(circuit: &Circuit, from: usize) -> impl Iterator<Item = Vec<Vec<u8>>> + '_ {
    let latches = circuit.latches.iter().zip(&circuit.resets);
    latches.map(move |(latch, reset)| {
        let reset = Some(reset).filter(|&&reset| reset != 0);
        latch[from..].iter().chain(reset).map(digits).collect()
    })
}

/// Counts without the zeros that may be left off.
fn counts(circuit: &Circuit) -> Vec<Vec<u8>> {
    let mut counts = circuit.counts().list().to_vec();
    while counts.len() > 5 && counts.last() == Some(&0) {
        counts.pop();
    }
    counts.into_iter().map(digits).collect()
}

impl Draft {
    /// In the shortest form.
    pub fn new(random: &mut Random, form: Form, circuit: &Circuit) -> Draft {
        let asked = circuit.asked().map(|literal| vec![digits(literal)]);
        let (name, lines, differences): (_, Vec<_>, _) = match form {
            Form::Text => {
                let inputs = circuit.inputs.iter().map(|input| vec![digits(input)]);
                let gates = circuit.gates.iter().map(|gate| gate.map(digits).to_vec());
                let lines = inputs.chain(latches(circuit, 0)).chain(asked).chain(gates);
                ("aag", lines.collect(), Vec::new())
            }
            Form::Binary => {
                let gates = circuit
                    .gates
                    .iter()
                    .flat_map(|[lhs, rhs0, rhs1]| [lhs - rhs0, rhs0 - rhs1]);
                let lines = latches(circuit, 1).chain(asked);
                ("aig", lines.collect(), gates.map(difference).collect())
            }
        };
        let first = match form {
            Form::Text => circuit.inputs.len(),
            Form::Binary => 0,
        };
        Draft {
            name: name.as_bytes().to_vec(),
            counts: counts(circuit),
            lines,
            latches: first..first + circuit.latches.len(),
            differences,
            symbols: tail::symbols(random, circuit),
            comment: tail::comment(random),
        }
    }

    /// Adds zeros that may be left off: counts, resets or both.
    pub fn lengthen(&mut self, random: &mut Random) {
        let kind = random.below(3);
        if kind > 0 && self.counts.len() < 9 {
            let counts = random.between(self.counts.len() + 1, 9);
            self.counts.resize(counts, digits(0));
        }
        for line in self.latches.clone() {
            let least = *self.fields(line).start();
            if kind < 2 && self.lines[line].len() == least && random.once_in(2) {
                self.lines[line].push(digits(0));
            }
        }
    }

    /// How many numbers a line may have.
    pub fn fields(&self, line: usize) -> RangeInclusive<usize> {
        let fields = self.lines[line].len();
        match (self.latches.contains(&line), self.is_binary()) {
            (false, _) => fields..=fields,
            (true, false) => 2..=3,
            (true, true) => 1..=2,
        }
    }

    /// Where the first number stands that the report of 2007 doesn't have.
    pub fn first_of_19(&self, layout: &Layout) -> Option<usize> {
        let mut lines = self.latches.clone();
        let reset = lines.find_map(|line| layout.fields[line].get(*self.fields(line).start()));
        layout.counts.get(5).or(reset).copied()
    }

    pub fn is_binary(&self) -> bool {
        self.name == b"aig"
    }

    pub fn layout(&self) -> Layout {
        let mut layout = Layout::default();
        layout.file.extend(&self.name);
        layout.file.push(b' ');
        layout.counts = line(&mut layout.file, &self.counts);
        layout.fields = self.lines.iter().map(|fields| line(&mut layout.file, fields)).collect();
        for difference in &self.differences {
            layout.differences.push(layout.file.len());
            layout.file.extend(difference);
        }
        layout.tail = layout.file.len();
        for symbol in &self.symbols {
            layout.symbols.push(layout.file.len());
            layout.file.extend(symbol);
            layout.file.push(b'\n');
        }
        layout.comment = layout.file.len();
        layout.file.extend(&self.comment);
        layout
    }

    /// Ends the file after so many differences.
    pub fn end_after_difference(&mut self, differences: usize) {
        self.differences.truncate(differences);
        self.end_before_tail();
    }

    pub fn end_before_tail(&mut self) {
        self.symbols.clear();
        self.comment.clear();
    }
}

/// Adds a line of fields with one space between; the place of each.
fn line(file: &mut Vec<u8>, fields: &[Vec<u8>]) -> Vec<usize> {
    let mut places = Vec::with_capacity(fields.len());
    for (k, field) in fields.iter().enumerate() {
        if k > 0 {
            file.push(b' ');
        }
        places.push(file.len());
        file.extend(field);
    }
    file.push(b'\n');
    places
}

/// The bytes of a difference, worked out from the top so as not to repeat the writer's way.
pub fn difference(value: u32) -> Vec<u8> {
    let low = (value & 127) as u8;
    let middle = (value >> 7 & 127) as u8;
    let high = (value >> 14) as u8;
    assert!(high < 128, "a literal has at most 21 bits");
    match (high, middle) {
        (0, 0) => vec![low],
        (0, _) => vec![low | 128, middle],
        _ => vec![low | 128, middle | 128, high],
    }
}
