//! Holds a library to this program's answers: number, place, counts, every word of every table, the tail.

pub mod cards;
pub mod tables;

use crate::aiger::{read, with_scratch, Circuit, Lengths, Version, TABLES};
use crate::ensure;
use crate::generate::{Answer, Answers};
use crate::library::{FileQuestion, Library, Question, ReadAnswer, ReadReply, Reply};
use crate::memory::Memory;

/// Whether a reader left every table as it must: the circuit's words, then zeros; zeros alone after a refusal; and the
/// margins as they were.
fn left(tables: &[Memory<u32>; 8], circuit: Option<&Circuit>, junk: u64) -> Result<(), String> {
    let words = circuit.map_or_else(Default::default, Circuit::tables);
    let words = with_scratch(words, Vec::new());
    for ((number, memory), start) in TABLES.iter().zip(tables).zip(&words) {
        let rest = memory.lent().strip_prefix(start.as_slice());
        ensure!(
            rest.is_some_and(|rest| rest.iter().all(|&word| word == 0)) && memory.margins_stand(junk),
            "table {number}: expected {start:?} and zeros, given {:?} with margins of {}",
            &memory.all[..memory.all.len().min(start.len() + 20)],
            memory.margin
        );
    }
    Ok(())
}

/// The table numbers asked of the desk question: all that exist, their neighbours, and some that wrap.
const ASKED: [u64; 15] = [
    0,
    1,
    2,
    3,
    4,
    5,
    6,
    7,
    8,
    9,
    10,
    1 << 32 | 1,
    1 << 32 | 7,
    1 << 63,
    u64::MAX,
];

pub fn compare(
    library: &dyn Library,
    file: &[u8],
    lengths: &Lengths,
    junk: u64,
    answers: &Answers,
) -> Result<(), String> {
    ask(library, file, lengths, junk);
    judge(library, file, junk, answers)
}

/// The first half of a comparison. Others may come between it and the second, in the same order.
pub fn ask(library: &dyn Library, file: &[u8], lengths: &Lengths, junk: u64) {
    library.ask(Question::File(FileQuestion {
        file: file.to_vec(),
        words: ASKED.to_vec(),
        readers: &Version::ALL,
        tables: lengths.map(|length| Memory::junk(length, junk)),
    }));
}

pub fn judge(library: &dyn Library, file: &[u8], junk: u64, answers: &Answers) -> Result<(), String> {
    let Reply::File(given) = library.reply()? else {
        return Err("the reply to another question".to_string());
    };
    for (table, given) in ASKED.into_iter().zip(given.words) {
        let expected = read::words(file, table);
        ensure!(
            given == expected,
            "words of table {table}: expected {expected}, given {given}"
        );
    }
    for ((version, answer), given) in Version::ALL.iter().zip(answers).zip(&given.reads) {
        read_as(file, junk, answer, given).map_err(|why| format!("{version:?}: {why}"))?;
    }
    Ok(())
}

/// What one reader left.
fn read_as(file: &[u8], junk: u64, answer: &Answer, given: &ReadReply) -> Result<(), String> {
    let expected = expected(file, answer);
    ensure!(
        given.answer == expected,
        "expected {expected:?}, given {:?}",
        given.answer
    );
    let circuit = answer.as_ref().ok().map(|(circuit, _)| circuit);
    left(&given.tables, circuit, junk)
}

fn expected(file: &[u8], answer: &Answer) -> ReadAnswer {
    match answer {
        Ok((circuit, tail)) => ReadAnswer {
            number: 0,
            place: 0,
            counts: circuit.counts().list(),
            tail: *tail as u64,
        },
        Err(refusal) => ReadAnswer {
            number: refusal.number,
            place: refusal.place,
            counts: [0; 7],
            tail: file.len() as u64,
        },
    }
}
