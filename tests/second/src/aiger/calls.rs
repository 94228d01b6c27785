//! The calls that are given tables, each with all of its refusals in the paper's order: 2 to 8, 15, the tail
//! by 1 and 10, 24, 13, 12, 17, 19 or 20, 11.

use super::fillings::{self, Verdict, MOST_X};
use super::plain::{self, MOST_GATES};
use super::report::{self, Numbers, MOST_STEPS};
use super::rows::{self, Rows, LANES};
use super::step::{self, Step};
use super::tables::{self, binary_order, Given};
use super::{cards, convert, explain, reduce, refuse, rewire, tail, unused, write, Circuit, Form, Refusal, Version};

pub fn check(given: &Given) -> Result<(), Refusal> {
    tables::check(given).map(drop)
}

pub fn write_text(given: &Given, tail: &[u8], buffer: u64) -> Result<Vec<u8>, Refusal> {
    let circuit = tables::check(given)?;
    tail::check(tail, &given.counts, Version::V19)?;
    write::fits(write::file(&circuit, Form::Text, tail), buffer)
}

pub fn write_binary(given: &Given, tail: &[u8], buffer: u64) -> Result<Vec<u8>, Refusal> {
    let circuit = in_order(given)?;
    tail::check(tail, &given.counts, Version::V19)?;
    write::fits(write::file(&circuit, Form::Binary, tail), buffer)
}

pub fn write_cards(given: &Given, tail: &[u8], buffer: u64) -> Result<Vec<u8>, Refusal> {
    let circuit = in_order(given)?;
    tail::check(tail, &given.counts, Version::V19)?;
    on_cards(&circuit, tail)?;
    write::fits(cards::file(&circuit), buffer)
}

/// 19: what cards can't hold.
pub fn on_cards(circuit: &Circuit, tail: &[u8]) -> Result<(), Refusal> {
    if !tail.is_empty() || !cards::can_hold(circuit) {
        return refuse(19, 0);
    }
    Ok(())
}

pub fn convert(given: &Given) -> Result<Circuit, Refusal> {
    Ok(convert::convert(&tables::check(given)?).circuit)
}

pub fn reduce(given: &Given) -> Result<Circuit, Refusal> {
    Ok(reduce::reduce(&in_order(given)?))
}

pub fn drop_unused(given: &Given) -> Result<Circuit, Refusal> {
    Ok(unused::drop_unused(&in_order(given)?))
}

/// `output` is the length of the vector lent for the outputs.
pub fn step(given: &Given, state: &[u8], input: &[u8], output: u64) -> Result<Step, Refusal> {
    let circuit = in_order(given)?;
    state_and_input(given, state, input)?;
    if output != given.counts.o {
        return refuse(12, 3);
    }
    Ok(step::step(&circuit, state, input))
}

/// The same by the plain engine.
pub fn step_plain(given: &Given, state: &[u8], input: &[u8], output: u64) -> Result<Step, Refusal> {
    let circuit = in_order(given)?;
    few_gates(&circuit)?;
    state_and_input(given, state, input)?;
    if output != given.counts.o {
        return refuse(12, 3);
    }
    Ok(plain::step(&circuit, state, input))
}

/// 24: more gates than the plain engine takes.
pub fn few_gates(circuit: &Circuit) -> Result<(), Refusal> {
    let gates = circuit.gates.len();
    if gates as u64 > MOST_GATES {
        return refuse(24, gates);
    }
    Ok(())
}

/// 12, the state before the input.
fn state_and_input(given: &Given, state: &[u8], input: &[u8]) -> Result<(), Refusal> {
    if state.len() as u64 != given.counts.l || !are_values(state) {
        return refuse(12, 1);
    }
    if input.len() as u64 != given.counts.i || !are_values(input) {
        return refuse(12, 2);
    }
    Ok(())
}

/// `room` is the length of the buffer lent for the marks.
pub fn explain(given: &Given, state: &[u8], input: &[u8], output: u64, room: u64) -> Result<Vec<u8>, Refusal> {
    let circuit = in_order(given)?;
    state_and_input(given, state, input)?;
    if output >= given.counts.o {
        return refuse(17, 1);
    }
    match explain::explain(&circuit, state, input, circuit.outputs[output as usize]) {
        None => refuse(17, 2),
        Some(marks) => write::fits(marks, room),
    }
}

pub fn witness(given: &Given, number: u64, list: &[u8], allowance: u64) -> Result<Verdict, Refusal> {
    let circuit = in_order(given)?;
    let vectors = vectors(&circuit, number, list)?;
    let unknown = fillings::unknown(&fillings::values(&circuit, &vectors));
    if unknown > MOST_X {
        return refuse(20, unknown);
    }
    Ok(fillings::witness(&circuit, &vectors, allowance))
}

pub fn witness3(given: &Given, number: u64, list: &[u8]) -> Result<bool, Refusal> {
    let circuit = in_order(given)?;
    let vectors = vectors(&circuit, number, list)?;
    Ok(step::witness(&circuit, vectors.into_iter()))
}

pub fn report(given: &Given, number: u64, list: &[u8]) -> Result<Vec<Numbers>, Refusal> {
    let circuit = in_order(given)?;
    if number > MOST_STEPS {
        return refuse(13, MOST_STEPS as usize);
    }
    let vectors = vectors(&circuit, number, list)?;
    Ok(report::report(&circuit, vectors.into_iter()))
}

/// `next` and `output` are the lengths of the bytes lent for next states and for outputs.
pub fn rows(given: &Given, number: u64, [next, output]: [u64; 2], list: &[u8]) -> Result<Rows, Refusal> {
    let circuit = in_order(given)?;
    lanes(number)?;
    if next != number * given.counts.l {
        return refuse(12, 1);
    }
    let vectors = vectors(&circuit, number, list)?;
    if output != number * given.counts.o {
        return refuse(12, 3);
    }
    Ok(rows::rows(&circuit, &vectors))
}

pub fn report_rows(given: &Given, number: u64, list: &[u8]) -> Result<Vec<[u32; 3]>, Refusal> {
    let circuit = in_order(given)?;
    lanes(number)?;
    Ok(rows::report(&circuit, &vectors(&circuit, number, list)?))
}

/// 13: more rows than lanes.
fn lanes(number: u64) -> Result<(), Refusal> {
    if number > LANES {
        return refuse(13, LANES as usize);
    }
    Ok(())
}

/// The edited circuit and its values. All that is asked of the sides and of the values comes after what is asked of tables.
pub fn rewire(given: &Given, gate: u64, sides: [u32; 2], values: &[u8]) -> Result<(Circuit, Vec<u8>), Refusal> {
    let circuit = in_order(given)?;
    if gate >= given.counts.a {
        return Err(Refusal {
            number: 22,
            place: gate,
        });
    }
    let gate = gate as usize;
    if !sides
        .iter()
        .all(|&side| tables::in_range(side.into(), circuit.m, false))
    {
        return refuse(5, 4);
    }
    if !sides.iter().all(|&side| side < circuit.gates[gate][0]) {
        return refuse(15, 0);
    }
    if values.len() as u64 != circuit.m + 1 {
        return refuse(12, 4);
    }
    if let Some(least) = rewire::wrong(&circuit, values) {
        return refuse(23, least);
    }
    let edited = rewire::rewired(&circuit, gate, sides);
    let values = rewire::fresh(&edited, values);
    Ok((edited, values))
}

/// The vectors of a list, which is judged as a whole before the first step. Its length is compared as a true product.
fn vectors<'a>(circuit: &Circuit, number: u64, list: &'a [u8]) -> Result<Vec<&'a [u8]>, Refusal> {
    let i = circuit.inputs.len();
    if list.len() as u128 != u128::from(number) * i as u128 || !are_values(list) {
        return refuse(12, 2);
    }
    Ok((0..number as usize).map(|k| &list[k * i..(k + 1) * i]).collect())
}

fn in_order(given: &Given) -> Result<Circuit, Refusal> {
    let circuit = tables::check(given)?;
    binary_order(&circuit)?;
    Ok(circuit)
}

pub fn are_values(vector: &[u8]) -> bool {
    vector.iter().all(|value| b"01x".contains(value))
}
