//! What is compared, seen from the caller's side.

use crate::aiger::{Counts, Version, CIRCUIT, TABLES};
use crate::memory::Memory;

/// What a read answers beside the tables.
#[derive(Clone, Debug, PartialEq, Eq)]
pub struct ReadAnswer {
    /// 0 if the file is accepted.
    pub number: u64,
    pub place: u64,
    /// M I L O A B C.
    pub counts: [u64; 7],
    /// Where the tail starts; the file's length after a refusal.
    pub tail: u64,
}

/// All that is asked about one file: how many words tables need, and to read it by one reader or both.
pub struct FileQuestion {
    pub file: Vec<u8>,
    /// The numbers of the tables.
    pub words: Vec<u64>,
    pub readers: &'static [Version],
    /// The tables by number, as they are lent to each read.
    pub tables: [Memory<u32>; 8],
}

pub struct FileReply {
    pub words: Vec<u64>,
    /// For each reader that was asked.
    pub reads: Vec<ReadReply>,
}

pub struct ReadReply {
    pub answer: ReadAnswer,
    /// As the read left them.
    pub tables: [Memory<u32>; 8],
}

/// A refusal's number, and its places if they are a few: a count, a table, a vector, a limit.
pub type Told = (u64, &'static [u64]);

/// What every call can tell of given tables.
const OF_TABLES: [Told; 7] = [
    (2, &[1, 2, 3, 4, 5, 6, 7]),
    (3, &[0]),
    (4, &TABLES),
    (5, &CIRCUIT),
    (6, &[1, 2, 4]),
    (7, &[]),
    (8, &[]),
];

const ORDER: Told = (15, &[0]);

/// The calls that are given tables.
#[derive(Clone, Copy, Debug, PartialEq, Eq)]
pub enum Call {
    Check,
    WriteText,
    WriteBinary,
    Convert,
    Reduce,
    Step,
    Witness,
    Drop,
    Report,
    Witness3,
    Rows,
    ReportRows,
    Explain,
    StepPlain,
    Rewire,
    WriteCards,
}

impl Call {
    pub const ALL: [Call; 16] = [
        Call::Check,
        Call::WriteText,
        Call::WriteBinary,
        Call::Convert,
        Call::Reduce,
        Call::Step,
        Call::Witness,
        Call::Drop,
        Call::Report,
        Call::Witness3,
        Call::Rows,
        Call::ReportRows,
        Call::Explain,
        Call::StepPlain,
        Call::Rewire,
        Call::WriteCards,
    ];

    pub fn named(name: &str) -> Option<Call> {
        Call::ALL.into_iter().find(|call| call.name() == name)
    }

    pub fn name(self) -> &'static str {
        match self {
            Call::Check => "check",
            Call::WriteText => "write-text",
            Call::WriteBinary => "write-binary",
            Call::Convert => "convert",
            Call::Reduce => "reduce",
            Call::Step => "step",
            Call::Witness => "witness",
            Call::Drop => "drop",
            Call::Report => "report",
            Call::Witness3 => "witness3",
            Call::Rows => "rows",
            Call::ReportRows => "report-rows",
            Call::Explain => "explain",
            Call::StepPlain => "step-plain",
            Call::Rewire => "rewire",
            Call::WriteCards => "write-cards",
        }
    }

    /// What it can tell of given tables: 4 at 6 if it is lent that table, 15 if it asks for their order.
    pub fn told_of_tables(self) -> Vec<Told> {
        let mut told = OF_TABLES.to_vec();
        told.extend(self.sixth().map(|_| -> Told { (4, &[6]) }));
        told.extend(self.asks_order().then_some(ORDER));
        told
    }

    /// What it can tell of all else that it is given, in the order in which that is judged.
    pub fn told_beside(self) -> &'static [Told] {
        match self {
            Call::Check | Call::Convert | Call::Reduce | Call::Drop => &[],
            Call::WriteText | Call::WriteBinary => &[(1, &[]), (10, &[]), (11, &[])],
            Call::WriteCards => &[(1, &[]), (10, &[]), (19, &[0]), (11, &[])],
            Call::Step => &[(12, &[1, 2, 3])],
            Call::StepPlain => &[(24, &[]), (12, &[1, 2, 3])],
            Call::Witness => &[(12, &[2]), (20, &[])],
            Call::Witness3 => &[(12, &[2])],
            Call::Report => &[(13, &[65_536]), (12, &[2])],
            Call::Rows => &[(13, &[64]), (12, &[1, 2, 3])],
            Call::ReportRows => &[(13, &[64]), (12, &[2])],
            Call::Explain => &[(12, &[1, 2]), (17, &[1, 2]), (11, &[])],
            Call::Rewire => &[(22, &[]), (5, &[4]), (15, &[0]), (12, &[4]), (23, &[])],
        }
    }

    /// Whether it refuses tables not in binary order.
    pub fn asks_order(self) -> bool {
        !matches!(self, Call::Check | Call::Convert | Call::WriteText)
    }

    /// The length of its answer: number, place, values.
    pub fn answers(self) -> u64 {
        match self {
            Call::Check | Call::Step | Call::StepPlain | Call::Explain | Call::Rewire => 2,
            Call::Report | Call::Rows | Call::ReportRows => 2,
            Call::WriteText | Call::WriteBinary | Call::WriteCards | Call::Witness3 => 3,
            Call::Witness => 4,
            Call::Convert | Call::Reduce | Call::Drop => 9,
        }
    }

    /// Whether its values are counted.
    pub fn takes_vectors(self) -> bool {
        matches!(self, Call::Step | Call::StepPlain | Call::Witness3)
    }

    /// Whether it is lent a circuit's tables for writing.
    pub fn writes_tables(self) -> bool {
        matches!(self, Call::Convert | Call::Reduce | Call::Drop)
    }

    /// The words that it needs of table 6, if it is lent that table.
    pub fn sixth(self) -> Option<fn(&Counts) -> u64> {
        match self {
            Call::Report => Some(|counts| 4 * (counts.o + counts.l)),
            Call::ReportRows => Some(|counts| 3 * counts.o),
            _ => None,
        }
    }
}

/// What such a call is lent.
#[derive(Clone, Debug, PartialEq, Eq)]
pub struct Lent {
    pub counts: Memory<u64>,
    /// All but scratch.
    pub tables: [Memory<u32>; 7],
    pub scratch: Memory<u32>,
    /// The same tables again, of conversion, reduction and dropping; of the reports table 6.
    pub written: Vec<Memory<u32>>,
    /// How many vectors, of the witness questions, of a report and of rows; of that of fillings the allowance too.
    /// Of an explanation the output's number; of rewiring the gate's number and two right sides.
    pub numbers: Vec<u64>,
    /// Of a writer the tail and the buffer; of a stepper state, inputs, outputs; of the witness questions and of a
    /// report the list; of rows next states, inputs, outputs; of an explanation state, inputs, marks; of rewiring
    /// the values.
    pub bytes: Vec<Memory<u8>>,
    pub answer: Memory<u64>,
}

impl Lent {
    /// The first of its numbers, 0 if it has none.
    pub fn number(&self) -> u64 {
        self.numbers.first().copied().unwrap_or(0)
    }
}

/// To read a card file into tables by number.
pub struct CardsQuestion {
    pub file: Vec<u8>,
    pub tables: [Memory<u32>; 8],
}

pub struct CardsReply {
    /// Number, place and the counts.
    pub answer: [u64; 9],
    /// As the read left them.
    pub tables: [Memory<u32>; 8],
}

pub enum Question {
    File(FileQuestion),
    Cards(CardsQuestion),
    Tables(Call, Lent),
}

pub enum Reply {
    File(FileReply),
    Cards(Box<CardsReply>),
    /// What was lent, as the call left it.
    Tables(Box<Lent>),
}

/// Questions may run ahead of replies.
pub trait Library {
    fn ask(&self, question: Question);

    /// The reply to the oldest question without one; an error if the library died of it.
    fn reply(&self) -> Result<Reply, String>;
}
