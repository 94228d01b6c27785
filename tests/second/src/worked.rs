//! What the program `vectors` must write of the worked examples. Its stored output is made here, and every run holds it
//! to this.

use crate::aiger::bytes::Cursor;
use crate::aiger::programs::{answer, Program, LENT};
use crate::aiger::{read, write, Circuit, Refusal, Version};
use crate::ensure;
use crate::tally::Tally;
use std::collections::BTreeSet;
use std::fs;
use std::path::{Path, PathBuf};

/// At least so many examples must be asked about, so that a lost list doesn't pass.
const FEWEST: usize = 70;

fn root() -> PathBuf {
    Path::new(env!("CARGO_MANIFEST_DIR")).join("../..")
}

fn bytes_of(path: &Path) -> Result<Vec<u8>, String> {
    fs::read(path).map_err(|error| format!("{}: {error}", path.display()))
}

/// The file that the program has under a name.
fn data(name: &str) -> Result<Vec<u8>, String> {
    bytes_of(&root().join("crates/vectors/data").join(name))
}

/// Three words for each example: what is asked, the file, the file of its vectors.
fn asked() -> Result<Vec<[String; 3]>, String> {
    let bytes = bytes_of(&root().join("crates/vectors/args"))?;
    let words = String::from_utf8(bytes).map_err(|error| error.to_string())?;
    let words: Vec<String> = words.lines().map(str::to_string).collect();
    let (examples, rest) = words.as_chunks();
    ensure!(rest.is_empty() && examples.len() >= FEWEST, "{} words", words.len());
    Ok(examples.to_vec())
}

/// All that the program must write.
pub fn output() -> Result<Vec<u8>, String> {
    let mut output = Vec::new();
    for [asked, name, vectors] in asked()? {
        output.extend(format!("{asked} {name}: ").bytes());
        let told = told(&asked, &data(&name)?, &vectors)?;
        output.extend(told.unwrap_or_else(|refusal| refusal.line().into_bytes()));
    }
    Ok(output)
}

/// What came of one example.
fn told(asked: &str, file: &[u8], vectors: &str) -> Result<Result<Vec<u8>, Refusal>, String> {
    let run = |program, input: &[u8]| answer(program, Some(file), Some(input));
    Ok(match asked {
        "tables" => read::read(file, &LENT, Version::V19).map(|(circuit, tail)| tables(&circuit, tail)),
        "convert" => run(Program::Converter, b"").map(|written| hexadecimal(&written)),
        "reduce" => run(Program::Reducer, b"").map(|written| hexadecimal(&written)),
        "lines" => run(Program::Tracer, &data(vectors)?).map(|lines| [b"steps\n", &lines[..]].concat()),
        "difference" => Cursor::new(file, 0).difference().map(|value| difference(value.value)),
        _ => return Err(format!("{asked} is asked")),
    })
}

/// M I L O A, tables 1 to 4, and where the tail starts: the program's examples are those of 2007.
fn tables(circuit: &Circuit, tail: usize) -> Vec<u8> {
    let mut line = "accepted".to_string();
    circuit
        .counts()
        .list()
        .iter()
        .take(5)
        .for_each(|count| line += &format!(" {count}"));
    for (name, table) in ["inputs", "latches", "outputs", "gates"].iter().zip(circuit.tables()) {
        line += &format!(" {name}");
        table.iter().for_each(|word| line += &format!(" {word}"));
    }
    format!("{line} tail {tail}\n").into_bytes()
}

fn hexadecimal(bytes: &[u8]) -> Vec<u8> {
    let digits: String = bytes.iter().map(|byte| format!(" {byte:02x}")).collect();
    format!("bytes{digits}\n").into_bytes()
}

/// A difference that was read, and its bytes as they are written.
fn difference(value: u64) -> Vec<u8> {
    let mut bytes = Vec::new();
    write::difference(&mut bytes, value as u32);
    [format!("value {value} ").into_bytes(), hexadecimal(&bytes)].concat()
}

pub fn run(tally: &mut Tally) {
    tally.check("the stored output of vectors", stored());
    // Without a list there is no output either, which has just been told.
    let examples = asked().unwrap_or_default().into_iter();
    let mut names: BTreeSet<String> = examples.flat_map(|[_, name, vectors]| [name, vectors]).collect();
    names.remove("-");
    for name in names {
        tally.check(&format!("vectors, {name}"), same(&name));
    }
}

fn stored() -> Result<(), String> {
    let stored = bytes_of(&root().join("crates/vectors/stdout"))?;
    let expected = output()?;
    let alike = stored.iter().zip(&expected).take_while(|(a, b)| a == b).count();
    ensure!(stored == expected, "different from byte {alike} on");
    Ok(())
}

/// Whether the program's file is the example of the same name below `tests`, or the difference that its name says.
fn same(name: &str) -> Result<(), String> {
    let expected = match name.strip_prefix("differences/") {
        Some(value) => {
            let mut bytes = Vec::new();
            let value = value.parse().map_err(|_| "no number")?;
            write::difference(&mut bytes, value);
            bytes
        }
        None => bytes_of(&root().join("tests").join(name))?,
    };
    let given = data(name)?;
    ensure!(given == expected, "{given:02x?} instead of {expected:02x?}");
    Ok(())
}
