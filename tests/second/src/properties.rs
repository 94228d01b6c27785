//! What must hold of this program's own answers, whatever the case.

mod given;
pub mod values;

use crate::aiger::convert::{convert, Converted};
use crate::aiger::reduce::reduce;
use crate::aiger::tables::{self, binary_order, Given};
use crate::aiger::unused::drop_unused;
use crate::aiger::{read, variable, write, Circuit, Form, Version, TABLES};
use crate::coverage::form;
use crate::ensure;
use crate::generate::{Answer, Answers, Case};
use crate::naive;
use crate::random::Random;
use crate::spelling::Spelling;
use std::collections::HashSet;

/// The slow definitions are taken only up to so many gates.
const FEW_GATES: usize = 60;

/// Above this many variables only reading and writing are checked.
const MANY_VARIABLES: u64 = 100_000;

pub fn check(case: &Case, answers: &Answers, random: &mut Random) -> Result<(), String> {
    for (promise, answer) in case.promises.iter().zip(answers) {
        if let Some(promise) = promise {
            ensure!(promise == answer, "foretold {promise:?}, given {answer:?}");
        }
    }
    let [old, answer] = answers;
    meaningful(case, answers)?;
    versions(case, old, answer)?;
    words(case, answer)?;
    let Ok((circuit, tail)) = answer else {
        return Ok(());
    };
    let tail = &case.file[*tail..];
    written(case, circuit, tail)?;
    if circuit.m > MANY_VARIABLES {
        return Ok(());
    }
    let converted = convert(circuit);
    conversion(circuit, &converted, tail)?;
    let reduced = reduce(&converted.circuit);
    reduction(&converted.circuit, &reduced)?;
    let dropped = drop_unused(&reduced);
    dropping(&reduced, &dropped)?;
    ensure!(reduce(&dropped) == dropped, "no longer reduced");
    dropping(&converted.circuit, &drop_unused(&converted.circuit))?;
    values::check(random, circuit, &converted, [&reduced, &dropped])?;
    given::check(random, circuit, tail)
}

/// The order of a binary file's variables leaves nothing to 6, 7 and 8.
fn meaningful(case: &Case, answers: &Answers) -> Result<(), String> {
    for refusal in answers.iter().filter_map(|answer| answer.as_ref().err()) {
        let of_text = matches!(refusal.number, 6..=8);
        ensure!(!of_text || form(&case.file) == Form::Text, "binary, {refusal:?}");
    }
    Ok(())
}

/// What the reader of 2007 accepts, that of 1.9 accepts alike; and if the circuit is one of 2007 and its file in the
/// shortest form, the other way round.
fn versions(case: &Case, old: &Answer, new: &Answer) -> Result<(), String> {
    ensure!(old.is_err() || old == new, "2007 gives {old:?}, 1.9 {new:?}");
    let Ok((circuit, _)) = new else {
        return Ok(());
    };
    let plain = circuit.resets.iter().all(|&reset| reset == 0) && circuit.counts().list()[5..] == [0, 0];
    let shortest = Spelling::of(&case.file, circuit.latches.len()).is_shortest();
    ensure!(old.is_ok() == (plain && shortest), "2007 gives {old:?}, 1.9 {new:?}");
    Ok(())
}

/// The desk question and the reader judge the same header.
fn words(case: &Case, answer: &Answer) -> Result<(), String> {
    let words = TABLES.map(|table| read::words(&case.file, table));
    for table in [0, 6, 10, u64::MAX] {
        ensure!(read::words(&case.file, table) == u64::MAX, "words of table {table}");
    }
    let mut all = TABLES.iter().zip(words).zip(case.lengths);
    let short = all.find_map(|((table, words), length)| (words > length).then_some(*table));
    match answer {
        Ok((circuit, _)) => {
            let needed = circuit.counts().words_to_read(form(&case.file));
            ensure!(words == needed, "words {words:?}")
        }
        Err(refusal) if matches!(refusal.number, 2 | 3 | 21) => ensure!(words == [u64::MAX; 8], "words {words:?}"),
        Err(refusal) if refusal.number == 4 => {
            ensure!(short == Some(refusal.place), "4 at {}", refusal.place)
        }
        Err(_) => ensure!(short.is_none() || words == [u64::MAX; 8], "no 4"),
    }
    Ok(())
}

/// The shortest form leaves no choice of bytes, so a file that was read from it is written as it was.
fn written(case: &Case, circuit: &Circuit, tail: &[u8]) -> Result<(), String> {
    let text = write::file(circuit, Form::Text, tail);
    let again = read::read(&text, &circuit.counts().words(), Version::V19);
    ensure!(
        again == Ok((circuit.clone(), text.len() - tail.len())),
        "read from its text: {again:?}"
    );
    let written = if case.file.starts_with(b"aag") {
        text
    } else {
        ensure!(binary_order(circuit).is_ok(), "a binary file not in binary order");
        write::file(circuit, Form::Binary, tail)
    };
    if Spelling::of(&case.file, circuit.latches.len()).is_shortest() {
        ensure!(written == case.file, "written as {written:02x?}");
    } else {
        ensure!(written.len() < case.file.len(), "written as {written:02x?}");
    }
    Ok(())
}

fn conversion(old: &Circuit, converted: &Converted, tail: &[u8]) -> Result<(), String> {
    let Converted { circuit: new, became } = converted;
    ensure!(
        tables::check(&Given::exactly(new)).as_ref() == Ok(new),
        "converted to {new:?}"
    );
    ensure!(binary_order(new).is_ok(), "converted to {new:?}");
    let counts = old.counts();
    let expected = crate::aiger::Counts {
        m: counts.i + counts.l + counts.a,
        ..counts
    };
    ensure!(new.counts() == expected, "converted to {:?}", new.counts());
    ensure!(convert(new).circuit == *new, "converted twice");
    ensure!(
        binary_order(old).is_err() || old == new,
        "changed though in binary order"
    );
    let bytes = write::file(new, Form::Binary, tail);
    let again = read::read(&bytes, &expected.words_to_read(Form::Binary), Version::V19);
    ensure!(
        again == Ok((new.clone(), bytes.len() - tail.len())),
        "read from its binary: {again:?}"
    );
    if old.gates.len() <= FEW_GATES {
        let sources = old.inputs.len() + old.latches.len();
        let numbers = naive::order(old).into_iter().map(|k| became[variable(old.gates[k][0])]);
        ensure!(numbers.eq(sources + 1..=new.m as usize), "numbers {became:?}");
    }
    Ok(())
}

/// A circuit in binary order with no more gates, and the same inputs and resets; done twice, it is done.
fn fewer(old: &Circuit, new: &Circuit, change: fn(&Circuit) -> Circuit) -> Result<(), String> {
    ensure!(
        tables::check(&Given::exactly(new)).as_ref() == Ok(new) && binary_order(new).is_ok(),
        "changed to {new:?}"
    );
    ensure!(
        new.inputs == old.inputs && new.resets == old.resets && new.gates.len() <= old.gates.len(),
        "changed to {new:?}"
    );
    ensure!(change(new) == *new, "changed twice");
    Ok(())
}

fn reduction(old: &Circuit, new: &Circuit) -> Result<(), String> {
    fewer(old, new, reduce).map_err(|why| format!("reduction: {why}"))?;
    let mut pairs = HashSet::new();
    for &[_, rhs0, rhs1] in &new.gates {
        ensure!(
            rhs1 >= 2 && variable(rhs0) != variable(rhs1),
            "a gate of {rhs0} and {rhs1} stays"
        );
        ensure!(pairs.insert((rhs0, rhs1)), "two gates of {rhs0} and {rhs1}");
    }
    Ok(())
}

/// The gates that are left are all that something asks for, in the order they had.
fn dropping(old: &Circuit, new: &Circuit) -> Result<(), String> {
    fewer(old, new, drop_unused).map_err(|why| format!("dropping: {why}"))?;
    if old.gates.len() <= FEW_GATES {
        let [before, after] = [old, new].map(naive::reached);
        ensure!(after.iter().all(|&reached| reached), "an unused gate stays: {new:?}");
        let left = before.iter().filter(|&&reached| reached).count();
        ensure!(left == new.gates.len(), "{left} gates are reached: {new:?}");
    }
    Ok(())
}
