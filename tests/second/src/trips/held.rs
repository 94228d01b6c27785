//! A circuit as the library left it, to be given to the next call.

use crate::aiger::{apart, Counts};
use crate::ensure;
use crate::library::{Call, Lent, ReadReply};
use crate::memory::Memory;

#[derive(Clone)]
pub struct Held {
    pub counts: [u64; 7],
    pub tables: [Memory<u32>; 7],
}

impl Held {
    pub fn none() -> Held {
        Held {
            counts: [0; 7],
            tables: [0; 7].map(|length| Memory::junk(length, 0)),
        }
    }

    pub fn was_read(read: ReadReply) -> Result<Held, String> {
        let answer = read.answer;
        ensure!((answer.number, answer.place) == (0, 0), "given {answer:?}");
        Ok(Held {
            counts: answer.counts,
            tables: apart(read.tables).0,
        })
    }

    /// What conversion or reduction wrote.
    pub fn was_changed(lent: Lent) -> Result<Held, String> {
        accepted(&lent)?;
        Ok(Held {
            counts: lent.answer.lent()[2..].try_into().expect("seven counts"),
            tables: lent.written.try_into().expect("seven tables"),
        })
    }

    /// With bad states and constraints as outputs, so that the stepper shows them.
    pub fn asked(&self, junk: u64) -> Held {
        let [m, i, l, o, a, b, c] = self.counts;
        let words = |k: usize, count: u64| &self.tables[k].lent()[..count as usize];
        let all = [words(2, o), words(5, b), words(6, c)].concat();
        let mut held = self.clone();
        held.counts = [m, i, l, o + b + c, a, 0, 0];
        held.tables[2] = Memory::around(&all, junk);
        held
    }

    /// With resets of 0 and 1 alone, as this state has them.
    pub fn starting(&self, state: &[u8], junk: u64) -> Held {
        let resets: Vec<u32> = state.iter().map(|&value| u32::from(value == b'1')).collect();
        let mut held = self.clone();
        held.tables[4] = Memory::around(&resets, junk);
        held
    }

    /// Exactly what the counts ask, without bytes.
    pub fn lent(&self, call: Call, junk: u64) -> Lent {
        let (words, scratch) = apart(Counts::new(self.counts).words());
        let written: &[u64] = if call.writes_tables() { &words } else { &[] };
        Lent {
            counts: Memory::around(&self.counts, junk),
            tables: self.tables.clone(),
            scratch: Memory::junk(scratch, junk),
            written: written.iter().map(|&length| Memory::junk(length, junk)).collect(),
            numbers: Vec::new(),
            bytes: Vec::new(),
            answer: Memory::junk(call.answers(), junk),
        }
    }
}

pub fn accepted(lent: &Lent) -> Result<(), String> {
    let answer = lent.answer.lent();
    ensure!(answer[..2] == [0, 0], "given {answer:?}");
    Ok(())
}
