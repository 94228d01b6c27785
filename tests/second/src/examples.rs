//! The worked examples below `tests/`: files, each with the answer that the paper or the AIGER report gives beside it.

mod calls;
mod fillings;
mod plans;

use crate::aiger::read::{self, header};
use crate::aiger::{
    convert, literal, programs, reduce, tables, write, Circuit, Counts, Form, Lengths, Refusal, Version, TABLES,
};
use crate::compare::compare;
use crate::ensure;
use crate::generate::{Answer, Answers};
use crate::library::Library;
use crate::tally::Tally;
use std::fs;
use std::path::{Path, PathBuf};

struct Example {
    path: PathBuf,
    file: Vec<u8>,
    lengths: Lengths,
    answers: Answers,
    /// The desk question's answers for the tables.
    words: Option<Lengths>,
}

/// At least so many files must be found, so that a lost folder doesn't pass.
const FEWEST: usize = 140;

pub fn run(tally: &mut Tally, library: Option<&dyn Library>) {
    let root = Path::new(env!("CARGO_MANIFEST_DIR")).join("..");
    let paths = files(&root);
    let enough = if paths.len() < FEWEST {
        Err(format!("only {} found", paths.len()))
    } else {
        Ok(())
    };
    tally.check("worked examples", enough);
    for path in paths {
        let name = path.strip_prefix(&root).unwrap_or(&path).display().to_string();
        tally.check(&name, example(&path).and_then(|example| check(&example, library)));
    }
    plans::run(tally);
    fillings::run(tally, library);
}

/// All circuits in `accepted` and `refused-NN`.
fn files(root: &Path) -> Vec<PathBuf> {
    let folders = ["accepted".to_string()]
        .into_iter()
        .chain((1..=21).map(|number| format!("refused-{number:02}")));
    let entries = folders
        .filter_map(|folder| fs::read_dir(root.join(folder)).ok())
        .flatten();
    let paths = entries.filter_map(|entry| Some(entry.ok()?.path()));
    let is_circuit = |path: &PathBuf| path.extension().is_some_and(|end| end == "aag" || end == "aig");
    let mut paths: Vec<PathBuf> = paths.filter(is_circuit).collect();
    paths.sort();
    paths
}

fn example(path: &Path) -> Result<Example, String> {
    let file = fs::read(path).map_err(|error| error.to_string())?;
    let expected = fs::read_to_string(path.with_extension("expected")).map_err(|error| error.to_string())?;
    let (first, rest) = expected.split_once('\n').ok_or("no line in .expected")?;
    let lines = Lines(rest);
    let new = answer(&lines, first)?;
    let old = answer(&lines, lines.find("2007").unwrap_or(first))?;
    let needed = header(&file, Version::V19).map_or([0; 8], |header| header.counts.words());
    let words = match lines.find("words") {
        Some("none") => Some([u64::MAX; 8]),
        Some(_) => Some(lines.some("words")?),
        None => None,
    };
    let lengths = if lines.find("lent").is_some() {
        lines.some("lent")?
    } else {
        needed
    };
    Ok(Example {
        path: path.to_path_buf(),
        file,
        lengths,
        answers: [old, new],
        words,
    })
}

/// The answer that a line tells.
fn answer(lines: &Lines, line: &str) -> Result<Answer, String> {
    match line.split(' ').collect::<Vec<_>>()[..] {
        ["accepted"] => Ok(Ok(accepted(lines)?)),
        ["refused", number, "at", place] => Ok(Err(Refusal {
            number: whole(number)?,
            place: whole(place)?,
        })),
        _ => Err(format!("no answer: {line}")),
    }
}

/// The lines after the first of an answer, each a name and numbers.
struct Lines<'a>(&'a str);

impl<'a> Lines<'a> {
    fn find(&self, name: &str) -> Option<&'a str> {
        let mut lines = self.0.lines().map(|line| line.split_once(' ').unwrap_or((line, "")));
        lines.find(|(first, _)| *first == name).map(|(_, rest)| rest)
    }

    /// The numbers of a line; "2 .. 8" stands for the even ones between as well.
    fn numbers(&self, name: &str) -> Result<Vec<u64>, String> {
        let line = self.find(name).ok_or_else(|| format!("no line {name}"))?;
        match line.split_once(" .. ") {
            Some((first, last)) => Ok((whole(first)?..=whole(last)?).step_by(2).collect()),
            None => line.split_ascii_whitespace().map(whole).collect(),
        }
    }

    fn some<const N: usize>(&self, name: &str) -> Result<[u64; N], String> {
        self.numbers(name)?
            .try_into()
            .map_err(|_| format!("{name} has not {N} numbers"))
    }
}

fn whole(digits: &str) -> Result<u64, String> {
    digits.parse().map_err(|_| format!("no number: {digits}"))
}

fn accepted(lines: &Lines) -> Result<(Circuit, usize), String> {
    let counts = Counts::new(lines.some("counts")?);
    let table =
        |name| -> Result<Vec<u32>, String> { Ok(lines.numbers(name)?.into_iter().map(|word| word as u32).collect()) };
    let circuit = Circuit {
        m: counts.m,
        inputs: table("inputs")?,
        latches: table("latches")?.as_chunks().0.to_vec(),
        outputs: table("outputs")?,
        gates: table("gates")?.as_chunks().0.to_vec(),
        resets: table("resets")?,
        bads: table("bads")?,
        constraints: table("constraints")?,
    };
    ensure!(circuit.counts() == counts, "the tables don't fit the counts");
    let tail = lines.numbers("tail")?;
    ensure!(tail.len() == 1, "the tail is one number");
    Ok((circuit, tail[0] as usize))
}

fn check(example: &Example, library: Option<&dyn Library>) -> Result<(), String> {
    let Example {
        file, lengths, answers, ..
    } = example;
    for (version, answer) in Version::ALL.into_iter().zip(answers) {
        let given = read::read(file, lengths, version);
        ensure!(given == *answer, "{version:?}: expected {answer:?}, given {given:?}");
    }
    if let Some(words) = example.words {
        let given = TABLES.map(|table| read::words(file, table));
        ensure!(given == words, "words: expected {words:?}, given {given:?}");
    }
    if let Some(library) = library {
        compare(library, file, lengths, literal(file.len()).into(), answers)?;
    }
    match &answers[Version::V19 as usize] {
        Ok((circuit, tail)) => beside(example, circuit, &file[*tail..], library),
        Err(_) => Ok(()),
    }
}

/// What stands beside an accepted file: what it converts to, reduces to, its trace and its report.
fn beside(example: &Example, circuit: &Circuit, tail: &[u8], library: Option<&dyn Library>) -> Result<(), String> {
    let beside = |end: &str| fs::read(example.path.with_extension(end)).ok();
    let converted = convert::convert(circuit).circuit;
    let reduced = reduce::reduce(&converted);
    for (end, circuit) in [("converts", &converted), ("reduces", &reduced)] {
        tables::binary_order(circuit).map_err(|_| format!("{end}: not in binary order"))?;
        let given = write::file(circuit, Form::Binary, tail);
        ensure!(
            beside(end).is_none_or(|expected| expected == given),
            "{end}: given {given:02x?}"
        );
    }
    let inputs = beside("inputs").unwrap_or_default();
    let list = programs::lines(&inputs);
    if let Some(trace) = beside("trace") {
        for circuit in [circuit, &converted] {
            let given = programs::trace(circuit, &list);
            ensure!(given == trace, "trace: given {:?}", String::from_utf8_lossy(&given));
        }
    }
    if let Some(report) = beside("report") {
        let given = programs::needles(&converted, &list);
        ensure!(given == report, "report: given {:?}", String::from_utf8_lossy(&given));
    }
    // What stands beside the file has been compared, so the library is held to that as well.
    let mut circuits = [circuit, &converted, &reduced].into_iter();
    library.map_or(Ok(()), |library| {
        circuits.try_for_each(|circuit| calls::called(library, circuit, tail, &list))
    })
}
