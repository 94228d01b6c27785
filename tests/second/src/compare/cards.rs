//! Holds a library's reader of cards to this program's answers.

use super::left;
use crate::aiger::{Circuit, Lengths, Refusal};
use crate::ensure;
use crate::library::{CardsQuestion, Library, Question, Reply};
use crate::memory::Memory;

pub fn compare(
    library: &dyn Library,
    file: &[u8],
    lengths: &Lengths,
    junk: u64,
    answer: &Result<Circuit, Refusal>,
) -> Result<(), String> {
    ask(library, file, lengths, junk);
    judge(library, junk, answer)
}

pub fn ask(library: &dyn Library, file: &[u8], lengths: &Lengths, junk: u64) {
    library.ask(Question::Cards(CardsQuestion {
        file: file.to_vec(),
        tables: lengths.map(|length| Memory::junk(length, junk)),
    }));
}

/// The answer, and every word of every table: zeros past the counts, and zeros alone after a refusal.
pub fn judge(library: &dyn Library, junk: u64, answer: &Result<Circuit, Refusal>) -> Result<(), String> {
    let Reply::Cards(given) = library.reply()? else {
        return Err("the reply to another question".to_string());
    };
    let mut expected = [0; 9];
    match answer {
        Ok(circuit) => expected[2..].copy_from_slice(&circuit.counts().list()),
        Err(refusal) => expected[..2].copy_from_slice(&[refusal.number, refusal.place]),
    }
    ensure!(
        given.answer == expected,
        "expected {expected:?}, given {:?}",
        given.answer
    );
    left(&given.tables, answer.as_ref().ok(), junk)
}
