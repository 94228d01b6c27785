//! Both forms as bytes.

use super::{Circuit, Form, Refusal};

pub fn file(circuit: &Circuit, form: Form, tail: &[u8]) -> Vec<u8> {
    let mut bytes = match form {
        Form::Text => text(circuit),
        Form::Binary => binary(circuit),
    };
    bytes.extend_from_slice(tail);
    bytes
}

/// 11, with the length needed.
pub fn fits(bytes: Vec<u8>, buffer: u64) -> Result<Vec<u8>, Refusal> {
    let needed = bytes.len() as u64;
    if needed > buffer {
        return Err(Refusal {
            number: 11,
            place: needed,
        });
    }
    Ok(bytes)
}

/// Zeros at the end are left off, but never of the first five.
fn header(name: &str, circuit: &Circuit) -> String {
    let counts = circuit.counts();
    let most = match (counts.b, counts.c) {
        (0, 0) => 5,
        (_, 0) => 6,
        _ => 7,
    };
    let numbers = counts.list().map(|count| count.to_string());
    format!("{name} {}\n", numbers[..most].join(" "))
}

/// The end of a latch's line: a reset of 0 is left off.
fn reset(reset: u32) -> String {
    match reset {
        0 => "\n".to_string(),
        _ => format!(" {reset}\n"),
    }
}

/// The lines of outputs, bad states and constraints.
fn asked(circuit: &Circuit) -> String {
    circuit.asked().map(|literal| format!("{literal}\n")).collect()
}

fn text(circuit: &Circuit) -> Vec<u8> {
    let mut lines = header("aag", circuit);
    for input in &circuit.inputs {
        lines += &format!("{input}\n");
    }
    for ([current, next], &start) in circuit.latches.iter().zip(&circuit.resets) {
        lines += &format!("{current} {next}{}", reset(start));
    }
    lines += &asked(circuit);
    for [lhs, rhs0, rhs1] in &circuit.gates {
        lines += &format!("{lhs} {rhs0} {rhs1}\n");
    }
    lines.into_bytes()
}

/// Only for a circuit in binary order.
fn binary(circuit: &Circuit) -> Vec<u8> {
    let mut lines = header("aig", circuit);
    for ([_, next], &start) in circuit.latches.iter().zip(&circuit.resets) {
        lines += &format!("{next}{}", reset(start));
    }
    lines += &asked(circuit);
    let mut bytes = lines.into_bytes();
    for [lhs, rhs0, rhs1] in &circuit.gates {
        difference(&mut bytes, lhs - rhs0);
        difference(&mut bytes, rhs0 - rhs1);
    }
    bytes
}

/// Groups of seven bits, low group first, the high bit set on all but the last byte.
pub fn difference(bytes: &mut Vec<u8>, mut value: u32) {
    while value >= 128 {
        bytes.push((value % 128) as u8 + 128);
        value /= 128;
    }
    bytes.push(value as u8);
}
