//! Cases for a reader, each made from a seed and a number: a file, the lengths of the lent tables, and, where
//! the way it was made shows it, the answer.

pub mod cards;
pub mod circuit;
pub mod damage;
pub mod draft;
mod edit;
pub mod given;
mod lend;
pub mod renamed;
pub mod runs;
pub mod values;

use crate::aiger::read::header;
use crate::aiger::{Circuit, Form, Lengths, Refusal, Version, TABLES};
use crate::random::Random;
use damage::AIMS;
use draft::Draft;

pub type Answer = Result<(Circuit, usize), Refusal>;

/// Of each version's reader, in the order of `Version::ALL`.
pub type Answers = [Answer; 2];

/// The answers that are known from the way a case was made, not from a reader.
pub type Promises = [Option<Answer>; 2];

pub struct Case {
    pub file: Vec<u8>,
    pub lengths: Lengths,
    /// Fills the lent tables before the call.
    pub junk: u64,
    pub promises: Promises,
}

/// What is done to a well-formed file.
#[derive(Clone, Copy, PartialEq, Eq)]
enum Treatment {
    Whole,
    Short,
    Damaged(u64),
    DamagedTwice(u64),
    Cut,
    Edited,
}

pub fn case(seed: u64, number: u64) -> Case {
    let mut random = Random::new(seed, number);
    let treatment = treatment(&mut random);
    let form = form(&mut random, treatment);
    let mut size = circuit::size(&mut random, form);
    // Every other file is one of 2007, or is it until it is damaged.
    let old = random.once_in(2);
    if old {
        (size.b, size.c, size.starts) = (0, 0, false);
    }
    if treatment == Treatment::Damaged(7) {
        size.unused = size.unused.max(1);
    }
    let circuit = circuit::circuit(&mut random, form, &size);
    let mut draft = Draft::new(&mut random, form, &circuit);
    if !old && random.once_in(3) {
        draft.lengthen(&mut random);
    }
    let (file, promises) = treat(&mut random, treatment, &circuit, draft);
    lend(&mut random, treatment, file, promises)
}

/// A well-formed file and its shortest form, apart from those of the cases.
pub fn whole(seed: u64, number: u64) -> [Vec<u8>; 2] {
    let mut random = Random::new(seed, 1 << 63 | number);
    let form = *random.pick(&[Form::Text, Form::Binary]);
    let size = circuit::size(&mut random, form);
    let circuit = circuit::circuit(&mut random, form, &size);
    let mut draft = Draft::new(&mut random, form, &circuit);
    let shortest = draft.layout().file;
    if random.once_in(4) {
        draft.lengthen(&mut random);
    }
    [draft.layout().file, shortest]
}

/// A file that is refused with a number, and the refusal; none if the one that was made has no place for that.
pub fn damaged(random: &mut Random, number: u64) -> Option<(Vec<u8>, Refusal)> {
    let form = form(random, Treatment::Damaged(number));
    let mut size = circuit::size(random, form);
    size.unused = size.unused.max(usize::from(number == 7));
    let circuit = circuit::circuit(random, form, &size);
    let mut draft = Draft::new(random, form, &circuit);
    let harm = damage::damage(random, number, &circuit, &mut draft)?;
    let layout = draft.layout();
    let refusal = harm.refusal(&layout);
    (refusal.number == number).then_some((layout.file, refusal))
}

fn treatment(random: &mut Random) -> Treatment {
    let aim = *random.pick(AIMS);
    match random.below(100) {
        0..=47 => Treatment::Whole,
        48..=53 => Treatment::Short,
        54..=77 => Treatment::Damaged(aim),
        78..=84 => Treatment::DamagedTwice(aim),
        85..=89 => Treatment::Cut,
        _ => Treatment::Edited,
    }
}

/// Some refusals belong to one form.
fn form(random: &mut Random, treatment: Treatment) -> Form {
    match treatment {
        Treatment::Damaged(6..=8) => Form::Text,
        Treatment::Damaged(9 | 16) => Form::Binary,
        _ => *random.pick(&[Form::Text, Form::Binary]),
    }
}

fn treat(random: &mut Random, treatment: Treatment, circuit: &Circuit, mut draft: Draft) -> (Vec<u8>, Promises) {
    let layout = draft.layout();
    let whole = Ok((circuit.clone(), layout.tail));
    match treatment {
        Treatment::Whole | Treatment::Short => {
            // The reader of 2007 stops at the space before what it doesn't have.
            let old = draft
                .first_of_19(&layout)
                .map_or(whole.clone(), |at| Err(early(at - 1)));
            (layout.file, [Some(old), Some(whole)])
        }
        Treatment::Damaged(aim) => match damage::damage(random, aim, circuit, &mut draft) {
            Some(harm) => {
                let layout = draft.layout();
                let refusal = harm.refusal(&layout);
                (layout.file, [None, Some(Err(refusal))])
            }
            None => (draft.layout().file, [None, None]),
        },
        Treatment::DamagedTwice(aim) => {
            damage::damage(random, aim, circuit, &mut draft);
            let aim = *random.pick(AIMS);
            damage::damage(random, aim, circuit, &mut draft);
            (draft.layout().file, [None, None])
        }
        Treatment::Cut => {
            let mut file = layout.file;
            file.truncate(random.below(file.len()));
            let stands = cut_stands(&file, layout.tail);
            let promise = if stands { whole } else { Err(early(file.len())) };
            (file, [None, Some(promise)])
        }
        Treatment::Edited => {
            let mut file = layout.file;
            edit::edit(random, &mut file);
            (file, [None, None])
        }
    }
}

/// Whether a file cut short is well formed: in the tail every line's end will do, and names hold no new line.
fn cut_stands(file: &[u8], tail: usize) -> bool {
    file.len() == tail || (file.len() > tail && file.last() == Some(&b'\n'))
}

fn early(end: usize) -> Refusal {
    Refusal {
        number: 1,
        place: end as u64,
    }
}

/// Above this a case is slow, and only well-formed files are worth it.
const MANY_WORDS: u64 = 300_000;

fn lend(random: &mut Random, treatment: Treatment, file: Vec<u8>, promises: Promises) -> Case {
    let needed = Version::ALL.map(|version| header(&file, version).ok().map(|header| header.words()));
    let lengths = lengths(random, treatment, &needed[1]);
    // 4 comes after the header and before all else.
    let mut needed = needed.into_iter();
    let promises = promises.map(|promise| {
        let short = needed.next()?.and_then(|needed| short(&needed, &lengths));
        promise.map(|promise| short.map_or(promise, Err))
    });
    Case {
        file,
        lengths,
        junk: random.word(),
        promises,
    }
}

/// 4, from the lengths needed and lent.
fn short(needed: &Lengths, lent: &Lengths) -> Option<Refusal> {
    let short = (0..TABLES.len()).find(|&k| lent[k] < needed[k])?;
    Some(Refusal {
        number: 4,
        place: TABLES[short],
    })
}

fn lengths(random: &mut Random, treatment: Treatment, needed: &Option<Lengths>) -> Lengths {
    match (needed, treatment) {
        (None, _) => lend::unrelated(random),
        (Some(needed), Treatment::Whole) => lend::enough(random, needed),
        (Some(needed), _) if needed.iter().sum::<u64>() > MANY_WORDS => lend::unrelated(random),
        (Some(needed), Treatment::Short) => too_short(random, needed),
        (Some(needed), _) if random.once_in(40) => too_short(random, needed),
        (Some(needed), _) => lend::enough(random, needed),
    }
}

/// Tables 8 and 9 more often, since fewer files need them; a file may need none at all.
fn too_short(random: &mut Random, needed: &Lengths) -> Lengths {
    let mut short = || {
        let table = *random.pick(&[1, 2, 3, 4, 5, 7, 7, 8, 8, 8, 8, 9, 9, 9, 9]);
        lend::short(random, needed, table)
    };
    (0..9).find_map(|_| short()).unwrap_or(*needed)
}
