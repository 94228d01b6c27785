//! Libraries with a slip each, to show that the comparison would notice it.

mod tables;

use crate::aiger::{read, with_scratch, Version};
use crate::compare::compare;
use crate::generate;
use crate::library::{FileQuestion, FileReply, Library, Question, ReadAnswer, ReadReply, Reply};
use crate::memory::Memory;
use crate::tally::Tally;
use std::cell::RefCell;
use std::collections::VecDeque;

#[derive(Clone, Copy, Debug, PartialEq, Eq)]
enum Slip {
    None,
    RefusesAll,
    HighGroupFirst,
    GatesSorted,
    ScratchLeft,
    SpareWordLeft,
    TablesLeftAfterRefusal,
    CountsAfterRefusal,
    TailAtTheEnd,
    PlaceOff,
    WritingTakenForSize,
    WritesBeside,
    WordsOfTheWholeFile,
    ScratchOf2007,
    ScratchOfText,
    ResetsForgotten,
    OldReaderReadsNew,
    NewReaderReadsOld,
}

const SLIPS: [Slip; 17] = [
    Slip::RefusesAll,
    Slip::HighGroupFirst,
    Slip::GatesSorted,
    Slip::ScratchLeft,
    Slip::SpareWordLeft,
    Slip::TablesLeftAfterRefusal,
    Slip::CountsAfterRefusal,
    Slip::TailAtTheEnd,
    Slip::PlaceOff,
    Slip::WritingTakenForSize,
    Slip::WritesBeside,
    Slip::WordsOfTheWholeFile,
    Slip::ScratchOf2007,
    Slip::ScratchOfText,
    Slip::ResetsForgotten,
    Slip::OldReaderReadsNew,
    Slip::NewReaderReadsOld,
];

/// A library that answers by a function.
struct Slipping<F> {
    answers: F,
    asked: RefCell<VecDeque<Question>>,
}

impl<F> Slipping<F> {
    fn new(answers: F) -> Self {
        let asked = RefCell::default();
        Slipping { answers, asked }
    }
}

impl<F: Fn(Question) -> Result<Reply, String>> Library for Slipping<F> {
    fn ask(&self, question: Question) {
        self.asked.borrow_mut().push_back(question);
    }

    fn reply(&self) -> Result<Reply, String> {
        let question = self.asked.borrow_mut().pop_front().expect("a question was asked");
        (self.answers)(question)
    }
}

impl Slip {
    fn answers(self, question: Question) -> Result<Reply, String> {
        let Question::File(FileQuestion {
            file,
            words,
            readers,
            tables,
        }) = question
        else {
            return Err("only files are read here".to_string());
        };
        let words = words.into_iter().map(|table| self.words(&file, table)).collect();
        let reads = readers
            .iter()
            .map(|&version| self.reads(&file, version, tables.clone()));
        let reads = reads.collect();
        Ok(Reply::File(FileReply { words, reads }))
    }

    fn reads(self, file: &[u8], version: Version, mut tables: [Memory<u32>; 8]) -> ReadReply {
        let version = match self {
            Slip::OldReaderReadsNew => Version::V19,
            Slip::NewReaderReadsOld => Version::V2007,
            _ => version,
        };
        let answer = self.read(file, version, tables.each_mut().map(Memory::lent_mut));
        if self == Slip::WritesBeside {
            let Memory { all, margin } = &mut tables[0];
            all.iter_mut().rev().take(*margin).for_each(|word| *word = 0);
        }
        ReadReply { answer, tables }
    }

    fn words(self, file: &[u8], table: u64) -> u64 {
        let words = read::words(file, table);
        let refused = words != u64::MAX && read::read(file, &[u64::MAX; 8], Version::V19).is_err();
        match self {
            Slip::WordsOfTheWholeFile if refused => u64::MAX,
            Slip::ScratchOf2007 if table == 5 && words != u64::MAX => {
                words - (read::words(file, 8) + read::words(file, 9))
            }
            Slip::ScratchOfText if table == 5 => {
                read::header(file, Version::V19).map_or(words, |header| header.counts.words()[4])
            }
            _ => words,
        }
    }

    fn read(self, file: &[u8], version: Version, mut lent: [&mut [u32]; 8]) -> ReadAnswer {
        let lengths = lent.each_ref().map(|table| table.len() as u64);
        let answer = read::read(file, &lengths, version);
        let slip = self;
        if slip != Slip::TablesLeftAfterRefusal || answer.is_ok() {
            lent.iter_mut().for_each(|table| table.fill(0));
        }
        match answer {
            Ok((circuit, tail)) if slip != Slip::RefusesAll => {
                for (lent, table) in lent.iter_mut().zip(with_scratch(circuit.tables(), Vec::new())) {
                    lent[..table.len()].copy_from_slice(&table);
                }
                let counts = circuit.counts();
                spoil(slip, &mut lent, counts.a as usize);
                ReadAnswer {
                    number: 0,
                    place: 0,
                    counts: counts.list(),
                    tail: if slip == Slip::TailAtTheEnd { file.len() } else { tail } as u64,
                }
            }
            refused => {
                let (number, place) = refused.map_or_else(|refusal| (refusal.number, refusal.place), |_| (1, 0));
                ReadAnswer {
                    number: if slip == Slip::WritingTakenForSize && number == 16 {
                        9
                    } else {
                        number
                    },
                    place: place + u64::from(slip == Slip::PlaceOff && number == 9),
                    counts: if slip == Slip::CountsAfterRefusal {
                        [1; 7]
                    } else {
                        [0; 7]
                    },
                    tail: file.len() as u64,
                }
            }
        }
    }
}

/// Slips in the tables of an accepted file with `a` gates.
fn spoil(slip: Slip, lent: &mut [&mut [u32]; 8], a: usize) {
    match slip {
        Slip::ResetsForgotten => lent[5].fill(0),
        Slip::ScratchLeft => *lent[4].last_mut().expect("scratch is never empty") = 7,
        Slip::SpareWordLeft if lent[3].len() > 3 * a => lent[3][3 * a] = 7,
        Slip::GatesSorted => lent[3][..3 * a].as_chunks_mut::<3>().0.sort(),
        Slip::HighGroupFirst => {
            for [lhs, rhs0, _] in lent[3][..3 * a].as_chunks_mut().0 {
                *rhs0 = lhs.wrapping_sub(turned(lhs.wrapping_sub(*rhs0)));
            }
        }
        _ => {}
    }
}

/// A difference of two groups, taken high group first.
fn turned(difference: u32) -> u32 {
    match difference {
        128..=16383 => difference % 128 * 128 + difference / 128,
        _ => difference,
    }
}

/// How many of the first cases must do to notice a slip.
const CASES: u64 = 3000;

pub fn run(tally: &mut Tally, seed: u64) {
    tally.check(
        "a library without a slip",
        notices(Slip::None, seed).map_or(Ok(()), Err),
    );
    for slip in SLIPS {
        let noticed = notices(slip, seed).map(drop).ok_or_else(|| "not noticed".to_string());
        tally.check(&format!("the slip {slip:?}"), noticed);
    }
    tables::run(tally, seed);
}

/// The first difference that a slip makes.
fn notices(slip: Slip, seed: u64) -> Option<String> {
    let library = Slipping::new(|question| slip.answers(question));
    (0..CASES).find_map(|number| {
        let case = generate::case(seed, number);
        let answers = Version::ALL.map(|version| read::read(&case.file, &case.lengths, version));
        compare(&library, &case.file, &case.lengths, case.junk, &answers).err()
    })
}
