//! The answers of the reader of cards.

use super::answered::{Answered, OF_CALLS, PER_REFUSAL};
use super::each;
use crate::aiger::{Circuit, Refusal};
use crate::generate::cards::CardsCase;
use crate::library::Told;
use crate::tally::Tally;

/// What it can tell. 2 at 10, 14 and 18 takes files of many megabytes, which are apart; tables 8 and 9 need no words.
const TOLD: &[Told] = &[
    (1, &[]),
    (18, &[]),
    (2, &[2, 6]),
    (3, &[0]),
    (4, &[1, 2, 3, 4, 5, 7]),
    (5, &[2, 3, 4]),
    (15, &[0]),
];

#[derive(Default)]
pub struct CardsCoverage {
    answered: Answered,
    /// One byte too few, one too many, tables exactly long enough.
    lengths: [u64; 3],
    /// A count of 2^32 - 1: M, I, L, O, A.
    largest: [u64; 5],
    /// The first wrong mark is the head's, a latch's, an output's, a gate's.
    marks: [u64; 4],
    /// Tables 1, 2, 3, 4, 5 and 7 one word too short.
    one_word_short: [u64; 6],
}

impl CardsCoverage {
    pub fn add(&mut self, case: &CardsCase, answer: &Result<Circuit, Refusal>) {
        match answer {
            Ok(circuit) => {
                self.answered.accept(!circuit.gates.is_empty());
                self.lengths[2] += u64::from(circuit.counts().words() == case.lengths);
            }
            Err(refusal) => {
                self.answered.refuse(refusal, case.promise.is_some());
                self.add_refused(case, refusal);
            }
        }
    }

    fn add_refused(&mut self, case: &CardsCase, refusal: &Refusal) {
        let Some(head @ [_, _, l, o, a]) = head(&case.file) else {
            return;
        };
        for (count, number) in self.largest.iter_mut().zip(head) {
            *count += u64::from(number == u64::from(u32::MAX));
        }
        let length = case.file.len() as u64;
        let asked = 22 + 6 * (l + o) + 10 * a;
        match refusal.number {
            1 => {
                self.lengths[0] += u64::from(asked == length + 1);
                self.lengths[1] += u64::from(asked + 1 == length);
            }
            18 => {
                let ends = [22, 22 + 6 * l, 22 + 6 * (l + o), asked];
                let kind = ends.iter().position(|&end| refusal.place < end).expect("a mark");
                self.marks[kind] += 1;
            }
            4 => {
                let table = [1, 2, 3, 4, 5, 7].iter().position(|&table| table == refusal.place);
                let k = table.expect("a table that cards need");
                self.one_word_short[k] += u64::from(case.lengths[k] + 1 == case.needed[k]);
            }
            _ => {}
        }
    }

    pub fn report(&self, tally: &mut Tally) {
        self.answered.report(tally, "cards", TOLD, OF_CALLS);
        let lengths = "cards with one byte too few, one too many, tables exactly long enough";
        each(tally, lengths, &self.lengths, PER_REFUSAL);
        each(tally, "cards with a count of 2^32 - 1", &self.largest, PER_REFUSAL / 4);
        each(tally, "cards with a wrong mark of", &self.marks, PER_REFUSAL);
        each(
            tally,
            "cards, one word too short",
            &self.one_word_short,
            PER_REFUSAL / 4,
        );
    }
}

/// The counts of a file that has them.
fn head(file: &[u8]) -> Option<[u64; 5]> {
    let bytes = file.get(2..22)?.as_chunks::<4>().0;
    Some([0, 1, 2, 3, 4].map(|k| u64::from(u32::from_le_bytes(bytes[k]))))
}
