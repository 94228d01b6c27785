//! Calls that are given tables, on both sides of each refusal.

use crate::aiger::tables::{binary_order, check as given_check, Given};
use crate::aiger::{calls, read, refuse, write, Circuit, Form, Refusal, Version, CIRCUIT, MOST};
use crate::ensure;
use crate::random::Random;

pub fn check(random: &mut Random, circuit: &Circuit, tail: &[u8]) -> Result<(), String> {
    counts(random, circuit)?;
    lengths(random, circuit)?;
    words(random, circuit)?;
    order(circuit)?;
    writers(circuit, tail)?;
    tails(circuit)?;
    vectors(random, circuit)
}

fn expect<T: PartialEq + std::fmt::Debug>(
    what: &str,
    given: Result<T, Refusal>,
    expected: Result<T, Refusal>,
) -> Result<(), String> {
    ensure!(given == expected, "{what}: expected {expected:?}, given {given:?}");
    Ok(())
}

/// 2 and 3.
fn counts(random: &mut Random, circuit: &Circuit) -> Result<(), String> {
    let k = random.below(7);
    let mut list = circuit.counts().list();
    list[k] = *random.pick(&[MOST + 1, 1 << 32, 1 << 62, u64::MAX]);
    let mut given = Given::exactly(circuit);
    given.counts = crate::aiger::Counts::new(list);
    expect("a count too large", given_check(&given), refuse(2, k + 1))?;
    let defined = circuit.defining().count() as u64;
    if defined > 0 {
        given.counts = circuit.counts();
        given.counts.m = random.below(defined as usize) as u64;
        expect("counts that disagree", given_check(&given), refuse(3, 0))?;
    }
    Ok(())
}

/// 4, for tables given, written and scratch; spare words change nothing.
fn lengths(random: &mut Random, circuit: &Circuit) -> Result<(), String> {
    let exact = Given::exactly(circuit);
    expect("tables", given_check(&exact), Ok(circuit.clone()))?;
    let mut spare = exact.clone();
    spare.tables[random.below(7)].extend([7, 0, u32::MAX]);
    expect("spare words", given_check(&spare), Ok(circuit.clone()))?;
    let mut short = exact.clone();
    short.scratch -= 1;
    expect("short scratch", given_check(&short), refuse(4, 5))?;
    let k = random.below(7);
    let number = CIRCUIT[k] as usize;
    if !exact.tables[k].is_empty() {
        // Scratch is short as well, and the least is named.
        short.tables[k].pop();
        expect("a short table", given_check(&short), refuse(4, number.min(5)))?;
        let mut short = exact.clone();
        short.written.as_mut().expect("exactly lends for writing")[k] -= 1;
        expect("a short written table", calls::convert(&short), refuse(4, number))?;
    }
    Ok(())
}

/// The table whose entry stands at a place of its text.
fn table_at(circuit: &Circuit, text: &[u8], place: u64) -> usize {
    let before = &text[..place as usize];
    let mut line = before.iter().filter(|&&byte| byte == b'\n').count() - 1;
    let spaces = before.iter().rev().take_while(|&&byte| byte != b'\n');
    let field = spaces.filter(|&&byte| byte == b' ').count();
    let counts = circuit.counts();
    let sections = [
        (1, counts.i),
        (2, counts.l),
        (3, counts.o),
        (8, counts.b),
        (9, counts.c),
    ];
    for (table, count) in sections {
        match line.checked_sub(count as usize) {
            Some(rest) => line = rest,
            None if (table, field) == (2, 2) => return 7,
            None => return table,
        }
    }
    4
}

/// One word of the tables changed: 5 to 8 must be what the text of those tables gives.
fn words(random: &mut Random, circuit: &Circuit) -> Result<(), String> {
    let mut given = Given::exactly(circuit);
    let k = random.below(7);
    if given.tables[k].is_empty() {
        return Ok(());
    }
    let near = random.below(2 * circuit.m as usize + 6) as u32;
    let word = *random.pick(&[near, near, near, near, u32::MAX, 0]);
    let at = random.below(given.tables[k].len());
    given.tables[k][at] = word;
    let changed = Circuit::of_tables(circuit.m, &given.tables);
    let text = write::file(&changed, Form::Text, b"");
    let expected = match read::read(&text, &circuit.counts().words(), Version::V19) {
        Ok((circuit, _)) => Ok(circuit),
        Err(Refusal {
            number: number @ (5 | 6),
            place,
        }) => refuse(number, table_at(circuit, &text, place)),
        Err(refusal) => Err(refusal),
    };
    expect("a word changed", given_check(&given), expected)
}

/// 5 over all tables, the least first, and only then 6.
fn order(circuit: &Circuit) -> Result<(), String> {
    let mut given = Given::exactly(circuit);
    if circuit.inputs.len() > 1 {
        given.tables[0][1] = given.tables[0][0];
        expect("an input twice", given_check(&given), refuse(6, 1))?;
    }
    for (k, number) in CIRCUIT.into_iter().enumerate().rev() {
        if let Some(word) = given.tables[k].last_mut() {
            *word = 2 * circuit.m as u32 + 2;
            expect("a word out of range", given_check(&given), refuse(5, number as usize))?;
        }
    }
    Ok(())
}

/// 11: a buffer one byte short is refused with the file's length, one that is just long enough gets the file.
fn bounded(write: impl Fn(u64) -> Result<Vec<u8>, Refusal>, file: Vec<u8>) -> Result<(), String> {
    let length = file.len();
    expect("a short buffer", write(length as u64 - 1), refuse(11, length))?;
    expect("a buffer", write(length as u64), Ok(file))
}

/// 15 and 11.
fn writers(circuit: &Circuit, tail: &[u8]) -> Result<(), String> {
    let given = Given::exactly(circuit);
    let text = write::file(circuit, Form::Text, tail);
    bounded(|room| calls::write_text(&given, tail, room), text)?;
    if binary_order(circuit).is_err() {
        expect(
            "no binary order",
            calls::write_binary(&given, tail, u64::MAX),
            refuse(15, 0),
        )?;
        expect("no binary order", calls::write_binary(&given, b"x", 0), refuse(15, 0))?;
        expect("no binary order", calls::reduce(&given), refuse(15, 0))?;
        expect("no binary order", calls::drop_unused(&given), refuse(15, 0))?;
        expect("no binary order", calls::step(&given, b"?", b"", 0), refuse(15, 0))?;
        expect(
            "no binary order",
            calls::explain(&given, b"?", b"", 9, 0),
            refuse(15, 0),
        )?;
        expect("no binary order", calls::rows(&given, 65, [9, 9], b"?"), refuse(15, 0))?;
        expect("no binary order", calls::report(&given, u64::MAX, b"?"), refuse(15, 0))?;
        expect("no binary order", calls::witness(&given, 1, b"?", 0), refuse(15, 0))?;
        expect(
            "no binary order",
            calls::step_plain(&given, b"?", b"", 0),
            refuse(15, 0),
        )?;
        let rewired = calls::rewire(&given, u64::MAX, [0, 0], b"");
        expect("no binary order", rewired, refuse(15, 0))?;
        return expect("no binary order", calls::witness3(&given, 1, b"?"), refuse(15, 0));
    }
    let binary = write::file(circuit, Form::Binary, tail);
    bounded(|room| calls::write_binary(&given, tail, room), binary)
}

/// The tail by 1 and 10, offsets within it, before 11.
fn tails(circuit: &Circuit) -> Result<(), String> {
    let given = Given::exactly(circuit);
    let write = |tail: &[u8]| calls::write_text(&given, tail, 0);
    expect("a tail", write(b"x"), refuse(1, 0))?;
    expect("a tail", write(b"c"), refuse(1, 1))?;
    expect("a tail", write(b"c\nx"), refuse(1, 3))?;
    for (letter, count) in [
        ("l", circuit.latches.len()),
        ("b", circuit.bads.len()),
        ("c", circuit.constraints.len()),
    ] {
        let high = format!("{letter}{count} p\n");
        expect("a tail", write(high.as_bytes()), refuse(10, 0))?;
    }
    if !circuit.inputs.is_empty() {
        expect("a tail", write(b"i0 p\ni0 q\n"), refuse(10, 5))?;
    }
    Ok(())
}

/// 12, the state before the input before the output.
fn vectors(random: &mut Random, circuit: &Circuit) -> Result<(), String> {
    if binary_order(circuit).is_err() {
        return Ok(());
    }
    let given = Given::exactly(circuit);
    let state = vec![b'x'; circuit.latches.len()];
    let input = vec![b'1'; circuit.inputs.len()];
    let outputs = circuit.outputs.len() as u64;
    let long = |vector: &[u8]| [vector, b"0"].concat();
    let step =
        |state: &[u8], input: &[u8], output| calls::step(&given, state, input, output).map(|step| step.output.len());
    expect("vectors", step(&state, &input, outputs), Ok(outputs as usize))?;
    expect(
        "a long state",
        step(&long(&state), &long(&input), outputs),
        refuse(12, 1),
    )?;
    expect("a long input", step(&state, &long(&input), outputs + 1), refuse(12, 2))?;
    expect("a long output", step(&state, &input, outputs + 1), refuse(12, 3))?;
    let ask = |number, list: &[u8]| calls::witness3(&given, number, list);
    expect("a long list", ask(1, &long(&input)), refuse(12, 2))?;
    if !state.is_empty() {
        let mut bad = state.clone();
        bad[random.below(state.len())] = *random.pick(b"2X\0 ");
        expect("a bad state", step(&bad, &long(&input), outputs), refuse(12, 1))?;
    }
    if !input.is_empty() {
        let mut bad = input.clone();
        bad[random.below(input.len())] = *random.pick(b"2X\0 ");
        expect("a bad input", step(&state, &bad, outputs + 1), refuse(12, 2))?;
        expect("a bad list", ask(1, &bad), refuse(12, 2))?;
        expect("a short list", ask(2, &input), refuse(12, 2))?;
    }
    if !input.is_empty() && input.len().is_multiple_of(2) {
        // As 64-bit words the product would be 0.
        expect("a list that wraps", ask(1 << 63, b""), refuse(12, 2))?;
    }
    Ok(())
}
