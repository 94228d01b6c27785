//! A long chain of gates, last gate first: quick only if no step looks at all gates again.

use crate::aiger::convert::convert;
use crate::aiger::fillings::MOST_X;
use crate::aiger::plain::MOST_GATES;
use crate::aiger::report::MOST_STEPS;
use crate::aiger::rows::LANES;
use crate::aiger::{literal, meaning, read, step, write, Circuit, Form, Version};
use crate::compare::{compare, tables};
use crate::ensure;
use crate::generate::given;
use crate::library::{Call, Library};
use crate::memory::Memory;
use crate::tally::Tally;

/// Fills what is lent.
const JUNK: u64 = 1 << 33;

/// Gates for the calls that may look at all gates again for each.
const FEWER: usize = 3000;

/// The chain in binary order: each gate is the And of the one below it and the input.
fn chain(a: usize) -> Circuit {
    Circuit {
        m: a as u64 + 1,
        inputs: vec![2],
        outputs: vec![literal(a + 1)],
        gates: (1..=a).map(|below| [literal(below + 1), literal(below), 2]).collect(),
        ..Circuit::default()
    }
}

/// As many gates as the plain engine takes, each asking for the one below it twice.
fn doubling() -> Circuit {
    let mut circuit = chain(MOST_GATES as usize);
    circuit.gates.iter_mut().for_each(|gate| gate[2] = gate[1]);
    circuit
}

/// The chain with its output in the middle: nothing uses the gates above.
fn headless(a: usize) -> Circuit {
    Circuit {
        outputs: vec![literal(a / 2 + 1)],
        ..chain(a)
    }
}

fn upside_down(a: usize) -> Circuit {
    let mut circuit = chain(a);
    circuit.gates.reverse();
    circuit
}

pub fn run(tally: &mut Tally, library: Option<&dyn Library>) {
    tally.check("a chain of 100,000 gates", long(100_000));
    if let Some(library) = library {
        tally.check("a chain of 20,000 gates", compared(library, 20_000));
    }
}

fn long(a: usize) -> Result<(), String> {
    let circuit = upside_down(a);
    let text = write::file(&circuit, Form::Text, b"");
    let given = read::read(&text, &circuit.counts().words(), Version::V19);
    ensure!(given == Ok((circuit.clone(), text.len())), "read otherwise");
    // The gates already run from the last variable to the first, so each keeps its number.
    ensure!(convert(&circuit).circuit == chain(a), "converted otherwise");
    for value in *b"01x" {
        ensure!(
            step::step(&circuit, b"", &[value]).output == [value],
            "stepped otherwise"
        );
    }
    let mut cyclic = circuit;
    cyclic.gates[a - 1][1] = literal(a + 1);
    ensure!(meaning::acyclic(&cyclic).is_err(), "the cycle is missed");
    Ok(())
}

fn compared(library: &dyn Library, a: usize) -> Result<(), String> {
    let circuit = upside_down(a);
    let text = write::file(&circuit, Form::Text, b"");
    let lengths = circuit.counts().words();
    let answers = Version::ALL.map(|_| Ok((circuit.clone(), text.len())));
    compare(library, &text, &lengths, JUNK, &answers)?;
    called(library, Call::Check, &circuit, &[])?;
    called(library, Call::WriteText, &circuit, &[0, text.len() as u64])?;
    let binary = write::file(&chain(a), Form::Binary, b"");
    called(library, Call::WriteBinary, &chain(a), &[0, binary.len() as u64])?;
    called(library, Call::Reduce, &chain(FEWER), &[])?;
    called(library, Call::Drop, &chain(a), &[])?;
    called(library, Call::Drop, &headless(a), &[])?;
    called(library, Call::Convert, &upside_down(FEWER), &[])?;
    values(library, a)?;
    [MOST_STEPS, MOST_STEPS + 1]
        .into_iter()
        .try_for_each(|number| reported(library, number))?;
    [u64::MAX, (1 << MOST_X) - 1]
        .into_iter()
        .try_for_each(|allowance| filled(library, allowance))
}

/// The calls that are given values.
fn values(library: &dyn Library, a: usize) -> Result<(), String> {
    asked(library, Call::StepPlain, &doubling(), &[], &[b"", b"1", b"?"])?;
    asked(library, Call::Explain, &chain(a), &[0], &[b"", b"1", b"?"])?;
    // The first gate of the chain is turned, and with it all the others.
    let before = step::values(&chain(a), b"", b"1");
    asked(library, Call::Rewire, &chain(a), &[0, 0, 2], &[&before])?;
    let inputs: Vec<u8> = (0..LANES as usize).map(|row| b"01x"[row * row % 5 % 3]).collect();
    let outputs = [b'?'; LANES as usize];
    asked(library, Call::Rows, &chain(a), &[LANES], &[b"", &inputs, &outputs])
}

/// An input or its negation is 1 in each filling of as many x as there may be, half of them in the first state.
fn filled(library: &dyn Library, allowance: u64) -> Result<(), String> {
    let latches = (2..=MOST_X / 2 + 1).map(|v| [literal(v), literal(v)]);
    let circuit = Circuit {
        m: MOST_X as u64 / 2 + 1,
        inputs: vec![2],
        outputs: vec![3],
        bads: vec![2],
        resets: latches.clone().map(|latch| latch[0]).collect(),
        latches: latches.collect(),
        ..Circuit::default()
    };
    let numbers = [MOST_X as u64 / 2, allowance];
    asked(library, Call::Witness, &circuit, &numbers, &[&[b'x'; MOST_X / 2]])
}

/// A report of so many vectors, which are all there.
fn reported(library: &dyn Library, number: u64) -> Result<(), String> {
    let circuit = Circuit {
        latches: vec![[4, 6]],
        resets: vec![4],
        m: 3,
        gates: vec![[6, 5, 2]],
        ..chain(2)
    };
    let list: Vec<u8> = (0..number).map(|k| b"01x"[(k * k % 7 % 3) as usize]).collect();
    asked(library, Call::Report, &circuit, &[number], &[&list])
}

/// A call on exactly the circuit's tables, with byte buffers of these lengths.
fn called(library: &dyn Library, call: Call, circuit: &Circuit, lengths: &[u64]) -> Result<(), String> {
    let buffers: Vec<Vec<u8>> = lengths.iter().map(|&length| vec![b'?'; length as usize]).collect();
    let buffers: Vec<&[u8]> = buffers.iter().map(Vec::as_slice).collect();
    asked(library, call, circuit, &[], &buffers)
}

/// The same with these numbers and bytes.
fn asked(library: &dyn Library, call: Call, circuit: &Circuit, numbers: &[u64], bytes: &[&[u8]]) -> Result<(), String> {
    let mut lent = given::lend(call, &given::exactly(call, circuit), JUNK);
    lent.numbers = numbers.to_vec();
    lent.bytes = bytes.iter().map(|buffer| Memory::around(buffer, JUNK)).collect();
    tables::compare(library, call, &lent)
}
