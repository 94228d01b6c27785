//! What a call on tables may get wrong.

use crate::aiger::cards;
use crate::compare::tables::{circuit, outcome};
use crate::library::Lent;
use crate::memory::{Element, Memory};

/// Spoils what a call leaves, given what it was lent.
pub type Slip = fn(&Lent, &mut Lent);

/// Slips that any call can make.
pub const ANY: &[(&str, Slip)] = &[
    ("accepts all", |_, after| after.answer.lent_mut().fill(0)),
    ("refuses all", |_, after| after.answer.lent_mut()[0] = 5),
    ("place off", |_, after| {
        if outcome(after).is_err() {
            after.answer.lent_mut()[1] ^= 1;
        }
    }),
    ("scratch left", |before, after| {
        if let Some(last) = after.scratch.lent_mut().last_mut() {
            *last = before.scratch.lent()[before.scratch.lent().len() - 1];
        }
    }),
    ("scratch left after a refusal", |before, after| {
        if outcome(after).is_err() {
            after.scratch = before.scratch.clone();
        }
    }),
    ("counts changed", |_, after| after.counts.lent_mut()[4] = 0),
    ("gates sorted", |_, after| {
        after.tables[3].lent_mut().as_chunks_mut::<3>().0.sort()
    }),
    ("spare words cleared", |before, after| {
        let inputs = before.counts.lent()[1] as usize;
        after.tables[0]
            .lent_mut()
            .iter_mut()
            .skip(inputs)
            .for_each(|word| *word = 0);
    }),
    ("writes before", |_, after| margin(&mut after.scratch, false)),
    ("writes behind", |_, after| margin(&mut after.scratch, true)),
    ("answers too much", |_, after| margin(&mut after.answer, true)),
];

/// A zero just outside of the memory.
pub fn margin<T: Element + Default>(memory: &mut Memory<T>, behind: bool) {
    let end = memory.all.len() - memory.margin;
    match memory.margin {
        0 => {}
        _ if behind => memory.all[end] = T::default(),
        margin => memory.all[margin - 1] = T::default(),
    }
}

pub const WRITERS: &[(&str, Slip)] = &[
    ("buffer changed after a refusal", |_, after| {
        if let (Err(_), Some(first)) = (outcome(after), after.bytes[1].lent_mut().first_mut()) {
            *first = 0;
        }
    }),
    ("bytes changed past those reported", |_, after| {
        let written = after.answer.lent()[2] as usize;
        if let (Ok(()), Some(spare)) = (outcome(after), after.bytes[1].lent_mut().get_mut(written)) {
            *spare = 0;
        }
    }),
    ("length invented", |_, after| {
        if outcome(after).is_ok() {
            after.answer.lent_mut()[2] += 1;
        }
    }),
    ("bytes reported after a refusal", |_, after| {
        if outcome(after).is_err() {
            after.answer.lent_mut()[2] = after.bytes[1].lent().len() as u64;
        }
    }),
    ("tail changed", |_, after| after.bytes[0].lent_mut().fill(b'c')),
    ("a byte too many", |_, after| margin(&mut after.bytes[1], true)),
];

/// Of writers that copy the tail.
pub const COPIES: &[(&str, Slip)] = &[("tail left out", |_, after| {
    if outcome(after).is_ok() {
        after.answer.lent_mut()[2] -= after.bytes[0].lent().len() as u64;
    }
})];

/// Of calls that write over the first of three buffers and over the last.
pub const BUFFERS: &[(&str, Slip)] = &[
    ("first buffer changed after a refusal", |_, after| {
        if outcome(after).is_err() {
            after.bytes[0].lent_mut().fill(b'0');
        }
    }),
    ("outputs changed after a refusal", |_, after| {
        if outcome(after).is_err() {
            after.bytes[2].lent_mut().fill(0);
        }
    }),
    ("inputs changed", |_, after| after.bytes[1].lent_mut().fill(b'x')),
    ("writes behind the first buffer", |_, after| {
        margin(&mut after.bytes[0], true)
    }),
    ("writes behind the outputs", |_, after| {
        margin(&mut after.bytes[2], true)
    }),
];

pub const CARDS: &[(&str, Slip)] = &[
    ("high byte first", |_, after| {
        if outcome(after).is_ok() {
            after.bytes[1].lent_mut()[2..6].reverse();
        }
    }),
    ("PO for PL", |before, after| {
        if outcome(after).is_ok() && before.counts.lent()[2] > 0 {
            after.bytes[1].lent_mut()[23] = b'O';
        }
    }),
    ("19 after 11", |before, after| {
        if outcome(after).is_err_and(|refusal| refusal.number == 19) {
            let needed = cards::file(&circuit(before)).len() as u64;
            if (before.bytes[1].lent().len() as u64) < needed {
                after.answer.lent_mut()[..2].copy_from_slice(&[11, needed]);
            }
        }
    }),
    ("19 for a tail alone", |before, after| {
        let late = outcome(after).is_err_and(|refusal| refusal.number == 19);
        if late && before.bytes[0].lent().is_empty() {
            after.answer.lent_mut().fill(0);
        }
    }),
];

pub const CHANGES: &[(&str, Slip)] = &[
    ("copies", |before, after| {
        if outcome(after).is_ok() {
            let gates = 3 * before.counts.lent()[4] as usize;
            after.written[3].lent_mut()[..gates].copy_from_slice(&before.tables[3].lent()[..gates]);
        }
    }),
    ("always writes the empty circuit", |_, after| {
        after.written.iter_mut().for_each(|table| table.lent_mut().fill(0));
    }),
    ("spare word left", |before, after| {
        let length = 3 * after.answer.lent()[6] as usize;
        if let (Ok(()), Some(spare)) = (outcome(after), after.written[3].lent_mut().get_mut(length)) {
            *spare = before.written[3].lent()[length];
        }
    }),
    ("tables left after a refusal", |before, after| {
        if outcome(after).is_err() {
            after.written = before.written.clone();
        }
    }),
    ("counts after a refusal", |before, after| {
        if outcome(after).is_err() {
            after.answer.lent_mut()[2..].copy_from_slice(before.counts.lent());
        }
    }),
    ("sides smaller first", |_, after| {
        let gates = after.written[3].lent_mut().as_chunks_mut::<3>().0;
        gates.iter_mut().for_each(|gate| gate[1..].sort());
    }),
    ("resets forgotten", |_, after| after.written[4].lent_mut().fill(0)),
    ("bad states not renamed", |before, after| {
        if outcome(after).is_ok() {
            let bads = before.counts.lent()[5] as usize;
            after.written[5].lent_mut()[..bads].copy_from_slice(&before.tables[5].lent()[..bads]);
        }
    }),
    ("constraints forgotten", |_, after| after.written[6].lent_mut().fill(0)),
    ("B and C forgotten", |_, after| after.answer.lent_mut()[7..].fill(0)),
    ("writes behind a table", |_, after| margin(&mut after.written[1], true)),
];
