//! Card files, whole and damaged, each made from a seed and a number.

mod turns;
mod wrong;

use super::circuit::{circuit, size};
use super::lend::{enough, short};
use crate::aiger::{Circuit, Form, Lengths, Refusal};
use crate::random::Random;
use turns::{round, Turn};
use wrong::{counted, cut, disagreeing, lengthened, marked, ordered, ranged, too_short};

pub struct CardsCase {
    pub file: Vec<u8>,
    /// The lengths of the lent tables, and what the circuit needs that was put on cards.
    pub lengths: Lengths,
    pub needed: Lengths,
    pub junk: u64,
    /// The answer, where the way it was made shows it.
    pub promise: Option<Result<Circuit, Refusal>>,
}

/// A card file in pieces: the numbers of each record, and its mark.
#[derive(Clone)]
pub struct Cards(pub Vec<(Vec<u8>, Vec<u32>)>);

impl Cards {
    pub fn new(circuit: &Circuit) -> Cards {
        let counts = circuit.counts().list().map(|count| count as u32);
        let mut all = vec![(b"PH".to_vec(), counts[..5].to_vec())];
        all.extend(circuit.latches.iter().map(|latch| (b"PL".to_vec(), vec![latch[1]])));
        all.extend(circuit.outputs.iter().map(|&output| (b"PO".to_vec(), vec![output])));
        all.extend(
            circuit
                .gates
                .iter()
                .map(|gate| (b"PA".to_vec(), vec![gate[1], gate[2]])),
        );
        Cards(all)
    }

    pub fn file(&self) -> Vec<u8> {
        let mut file = Vec::new();
        for (mark, numbers) in &self.0 {
            file.extend(mark);
            numbers.iter().for_each(|number| file.extend(number.to_le_bytes()));
        }
        file
    }

    /// Where a record starts.
    pub fn offset(&self, record: usize) -> usize {
        Cards(self.0[..record].to_vec()).file().len()
    }

    /// A record with this mark, and that or a later one.
    pub fn some(&self, random: &mut Random, mark: &[u8]) -> Option<[usize; 2]> {
        let all = 0..self.0.len();
        let such: Vec<usize> = all.filter(|&record| self.0[record].0 == mark).collect();
        let first = (!such.is_empty()).then(|| *random.pick(&such))?;
        Some([first, random.between(first, self.0.len() - 1)])
    }

    pub fn head(&mut self) -> &mut Vec<u32> {
        &mut self.0[0].1
    }
}

/// Keeps the numbers of cards apart from those of other cases.
const APART: u64 = 5 << 60;

/// A circuit that cards can hold.
pub fn plain(random: &mut Random) -> Circuit {
    let mut size = size(random, Form::Binary);
    (size.b, size.c, size.starts) = (0, 0, false);
    circuit(random, Form::Binary, &size)
}

/// How many cases there are in so many rounds.
pub fn cases(rounds: u64) -> u64 {
    rounds * round().len() as u64
}

pub fn case(seed: u64, number: u64) -> CardsCase {
    let mut random = Random::new(seed, APART | number);
    let round = round();
    let turn = round[(number % round.len() as u64) as usize];
    loop {
        // A circuit may have no place for what is to be wrong.
        if let Some(case) = made(&mut random, turn) {
            return case;
        }
    }
}

/// A file that is refused with this number, or by none.
pub fn some(random: &mut Random, number: Option<u64>) -> Vec<u8> {
    let such: Vec<Turn> = round().into_iter().filter(|turn| turn.number() == number).collect();
    loop {
        let turn = *random.pick(&such);
        if let Some(case) = made(random, turn) {
            return case.file;
        }
    }
}

fn made(random: &mut Random, turn: Turn) -> Option<CardsCase> {
    let circuit = plain(random);
    let needed = circuit.counts().words();
    let mut cards = Cards::new(&circuit);
    let (file, lengths, refusal) = match turn {
        Turn::Short(table) => {
            let lengths = short(random, &needed, table)?;
            (cards.file(), lengths, Some(too_short(table, &needed, &lengths)?))
        }
        Turn::OneByteLess | Turn::OneByteMore | Turn::OtherLength => {
            let (file, refusal) = cut(random, turn, &cards);
            (file, enough(random, &needed), Some(refusal))
        }
        _ => {
            let refusal = damage(random, turn, &circuit, &mut cards)?;
            (cards.file(), enough(random, &needed), refusal)
        }
    };
    let promise = match (turn, refusal) {
        (Turn::Nothing, _) => Some(Ok(circuit)),
        (_, refusal) => refusal.map(Err),
    };
    Some(CardsCase {
        file,
        lengths,
        needed,
        junk: random.word(),
        promise,
    })
}

/// What is told of the records once they are wrong. Where two things are, only a reader knows.
fn damage(random: &mut Random, turn: Turn, circuit: &Circuit, cards: &mut Cards) -> Option<Option<Refusal>> {
    let refusal = match turn {
        Turn::Counts(k) => lengthened(random, cards, k)?,
        Turn::Mark(kind) => marked(random, cards, kind)?,
        Turn::TooLarge(k) => counted(random, cards, k),
        Turn::Disagreeing => disagreeing(random, cards),
        Turn::Range(table) => ranged(random, circuit, cards, table)?,
        Turn::Order => ordered(random, circuit, cards)?,
        Turn::MarkAndLength => {
            marked(random, cards, 0)?;
            let k = random.between(2, 4);
            lengthened(random, cards, k)?
        }
        Turn::MarkAndCount => {
            marked(random, cards, 0)?;
            counted(random, cards, 0);
            return Some(None);
        }
        Turn::RangeAndOrder => {
            ranged(random, circuit, cards, 4)?;
            ordered(random, circuit, cards)?;
            return Some(None);
        }
        _ => return Some(None),
    };
    Some(Some(refusal))
}
