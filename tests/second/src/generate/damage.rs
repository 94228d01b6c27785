//! Damage to one piece of a draft, with the refusal that the paper gives for it.

mod counts;
mod differences;
mod marks;
pub mod numbers;
mod resets;
mod tail;

use super::draft::{Draft, Layout};
use crate::aiger::{Circuit, Refusal};
use crate::random::Random;
use std::ops::RangeInclusive;

/// A number of the header or of a line.
#[derive(Clone, Copy, Debug)]
pub enum Slot {
    Count(usize),
    Field(usize, usize),
}

/// Where a refusal is to be placed, known as an offset only once the file is laid out.
#[derive(Clone, Copy, Debug)]
pub enum Spot {
    /// An offset, a variable or a table.
    Exactly(usize),
    End,
    /// So many bytes into a number.
    Number(Slot, usize),
    Difference(usize),
    Symbol(usize, usize),
    Comment(usize),
}

#[derive(Clone, Copy, Debug)]
pub struct Harm {
    pub number: u64,
    pub spot: Spot,
}

fn harm(number: u64, spot: Spot) -> Option<Harm> {
    Some(Harm { number, spot })
}

impl Harm {
    pub fn refusal(&self, layout: &Layout) -> Refusal {
        let place = match self.spot {
            Spot::Exactly(place) => place,
            Spot::End => layout.file.len(),
            Spot::Number(Slot::Count(k), plus) => layout.counts[k] + plus,
            Spot::Number(Slot::Field(line, k), plus) => layout.fields[line][k] + plus,
            Spot::Difference(k) => layout.differences[k],
            Spot::Symbol(k, plus) => layout.symbols[k] + plus,
            Spot::Comment(plus) => layout.comment + plus,
        };
        Refusal {
            number: self.number,
            place: place as u64,
        }
    }
}

/// Damages a draft of the circuit; none if the draft has no place for it.
type Damage = fn(&mut Random, &Circuit, &mut Draft) -> Option<Harm>;

fn damages(random: &mut Random, number: u64) -> &'static [Damage] {
    match number {
        1 => marks::ALL,
        2 => &[counts::too_many],
        3 => &[counts::disagree],
        5 if random.once_in(3) => resets::ALL,
        5 => numbers::RANGES,
        6 => &[numbers::second_definition],
        7 => &[
            numbers::undefined,
            numbers::undefined_bad,
            numbers::undefined,
            numbers::undefined_and_cycle,
        ],
        8 => &[numbers::cycle],
        9 => differences::SIZES,
        10 => tail::SYMBOLS,
        11 => &[counts::changed],
        16 => differences::WRITINGS,
        21 => counts::JUSTICE,
        _ => tail::MARKS,
    }
}

/// What damage aims at: a refusal; 0 is for 1 in the tail, so that it has its own share; 11 for none in particular.
pub const AIMS: &[u64] = &[0, 1, 2, 2, 3, 5, 6, 7, 8, 9, 10, 11, 16, 21];

pub fn damage(random: &mut Random, aim: u64, circuit: &Circuit, draft: &mut Draft) -> Option<Harm> {
    let damages = damages(random, aim);
    random.pick(damages)(random, circuit, draft)
}

fn digits(number: impl ToString) -> Vec<u8> {
    number.to_string().into_bytes()
}

/// Some number of the draft, and its digits.
fn some_number<'d>(random: &mut Random, draft: &'d mut Draft) -> (Slot, &'d mut Vec<u8>) {
    let lines = draft.lines.len();
    if lines == 0 || random.once_in(3) {
        let k = random.below(draft.counts.len());
        return (Slot::Count(k), &mut draft.counts[k]);
    }
    let line = random.below(lines);
    let k = random.below(draft.lines[line].len());
    (Slot::Field(line, k), &mut draft.lines[line][k])
}

/// The numbers of the line that a number stands in.
fn line_of(draft: &mut Draft, slot: Slot) -> &mut Vec<Vec<u8>> {
    match slot {
        Slot::Count(_) => &mut draft.counts,
        Slot::Field(line, _) => &mut draft.lines[line],
    }
}

/// How many numbers its line may have.
fn fields(draft: &Draft, slot: Slot) -> RangeInclusive<usize> {
    match slot {
        Slot::Count(_) => 5..=9,
        Slot::Field(line, _) => draft.fields(line),
    }
}

fn position(slot: Slot) -> usize {
    match slot {
        Slot::Count(k) | Slot::Field(_, k) => k,
    }
}

/// Another number of the same line.
fn sibling(slot: Slot, k: usize) -> Slot {
    match slot {
        Slot::Count(_) => Slot::Count(k),
        Slot::Field(line, _) => Slot::Field(line, k),
    }
}

/// Just behind the last number of a line.
fn line_end(draft: &mut Draft, slot: Slot) -> Spot {
    let line = line_of(draft, slot);
    let last = line.len() - 1;
    let length = line[last].len();
    Spot::Number(sibling(slot, last), length)
}

/// Digits of a number above `most`, near it or so large that a word would wrap round to `small`.
fn too_large(random: &mut Random, most: u64, small: u64) -> Vec<u8> {
    let (most, small) = (u128::from(most), u128::from(small));
    let number = match random.below(8) {
        0 | 1 => most + 1,
        2 => most + 2,
        3 => most + 1 + random.below(1000) as u128,
        4 => (1 << 32) + small,
        5 => (1 << 64) + small,
        6 => (u128::from(random.word()) << 64) + small + (1 << 64),
        _ => return (0..30).map(|_| random.between(49, 57) as u8).collect(),
    };
    number.to_string().into_bytes()
}
