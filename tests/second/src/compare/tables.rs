//! Holds a library to this program's outcome of a call on tables: the answer, and every element of all that was lent.

use crate::aiger::step::Step;
use crate::aiger::tables::{self, Given, Sixth};
use crate::aiger::{calls, Circuit, Counts, Refusal, CIRCUIT};
use crate::library::{Call, Lent, Library, Question, Reply};
use crate::memory::{Element, Memory};

/// Asks, and holds the reply to what must be left.
pub fn compare(library: &dyn Library, call: Call, lent: &Lent) -> Result<(), String> {
    ask(library, call, lent);
    judge(library, &after(call, lent)).map_err(|why| format!("{}: {why}", call.name()))
}

/// The first half of a comparison, as for a file.
pub fn ask(library: &dyn Library, call: Call, lent: &Lent) {
    library.ask(Question::Tables(call, lent.clone()));
}

pub fn judge(library: &dyn Library, expected: &Lent) -> Result<(), String> {
    let Reply::Tables(given) = library.reply()? else {
        return Err("the reply to another question".to_string());
    };
    same("answer", &expected.answer, &given.answer)?;
    same("counts", &expected.counts, &given.counts)?;
    for (number, (expected, given)) in CIRCUIT.iter().zip(expected.tables.iter().zip(&given.tables)) {
        same(&format!("table {number}"), expected, given)?;
    }
    let numbers: &[u64] = if expected.written.len() == 1 { &[6] } else { &CIRCUIT };
    for (number, (expected, given)) in numbers.iter().zip(expected.written.iter().zip(&given.written)) {
        same(&format!("written table {number}"), expected, given)?;
    }
    for (k, (expected, given)) in expected.bytes.iter().zip(&given.bytes).enumerate() {
        same(&format!("byte buffer {}", k + 1), expected, given)?;
    }
    same("scratch", &expected.scratch, &given.scratch)
}

fn same<T: Element>(name: &str, expected: &Memory<T>, given: &Memory<T>) -> Result<(), String> {
    let differ = expected
        .all
        .iter()
        .zip(&given.all)
        .position(|(one, other)| one != other);
    let Some(at) = differ else {
        return Ok(());
    };
    let end = expected.all.len().min(at + 12);
    Err(format!(
        "{name} differs from element {at} on, margins being {}: expected {:?}, given {:?}",
        expected.margin,
        &expected.all[at..end],
        &given.all[at..end]
    ))
}

/// What a call must leave of all that it was lent.
pub fn after(call: Call, before: &Lent) -> Lent {
    let mut after = before.clone();
    after.scratch.lent_mut().fill(0);
    let mut given = given(before);
    given.sixth = call.sixth().map(|needed| Sixth {
        needed,
        length: before.written[0].lent().len() as u64,
    });
    match call {
        Call::Check => answer(&mut after, calls::check(&given), |()| Vec::new()),
        Call::WriteText => written(&mut after, |tail, room| calls::write_text(&given, tail, room)),
        Call::WriteBinary => written(&mut after, |tail, room| calls::write_binary(&given, tail, room)),
        Call::WriteCards => written(&mut after, |tail, room| calls::write_cards(&given, tail, room)),
        Call::Convert => changed(&mut after, calls::convert(&given)),
        Call::Reduce => changed(&mut after, calls::reduce(&given)),
        Call::Drop => changed(&mut after, calls::drop_unused(&given)),
        Call::Step => stepped(&mut after, |state, input, output| {
            calls::step(&given, state, input, output)
        }),
        Call::StepPlain => stepped(&mut after, |state, input, output| {
            calls::step_plain(&given, state, input, output)
        }),
        Call::Witness => {
            let allowance = before.numbers[1];
            let verdict = calls::witness(&given, before.number(), before.bytes[0].lent(), allowance);
            answer(&mut after, verdict, |verdict| vec![verdict.says, verdict.tried]);
        }
        Call::Witness3 => {
            let outcome = calls::witness3(&given, before.number(), before.bytes[0].lent());
            answer(&mut after, outcome, |yes| vec![u64::from(yes)]);
        }
        Call::Report => {
            let report = calls::report(&given, before.number(), before.bytes[0].lent());
            reported(&mut after, report.map(|report| report.concat()));
        }
        Call::Rows => rowed(&mut after, &given),
        Call::Explain => explained(&mut after, &given),
        Call::Rewire => rewired(&mut after, &given),
        Call::ReportRows => {
            let report = calls::report_rows(&given, before.number(), before.bytes[0].lent());
            reported(&mut after, report.map(|report| report.concat()));
        }
    }
    after
}

/// An accepted write changes the bytes that it reports, a refusal none.
fn written(after: &mut Lent, write: impl Fn(&[u8], u64) -> Result<Vec<u8>, Refusal>) {
    let [tail, buffer] = after.bytes.as_mut_slice() else {
        unreachable!("a writer has a tail and a buffer");
    };
    let file = write(tail.lent(), buffer.lent().len() as u64);
    if let Ok(file) = &file {
        buffer.lent_mut()[..file.len()].copy_from_slice(file);
    }
    answer(after, file, |file| vec![file.len() as u64]);
}

/// The tables of an accepted change, and zeros; after a refusal zeros alone.
fn changed(after: &mut Lent, circuit: Result<Circuit, Refusal>) {
    after.written.iter_mut().for_each(|table| table.lent_mut().fill(0));
    if let Ok(circuit) = &circuit {
        for (written, table) in after.written.iter_mut().zip(circuit.tables()) {
            written.lent_mut()[..table.len()].copy_from_slice(&table);
        }
    }
    answer(after, circuit, |circuit| circuit.counts().list().to_vec());
}

/// The numbers of an accepted report, and zeros; after a refusal zeros alone.
fn reported(after: &mut Lent, report: Result<Vec<u32>, Refusal>) {
    let sixth = after.written[0].lent_mut();
    sixth.fill(0);
    if let Ok(report) = &report {
        sixth[..report.len()].copy_from_slice(report);
    }
    answer(after, report, |_| Vec::new());
}

/// The next state is written over the state; a refusal changes neither that nor the outputs.
fn stepped(after: &mut Lent, step: impl Fn(&[u8], &[u8], u64) -> Result<Step, Refusal>) {
    let [state, input, output] = three(after);
    let step = step(state, input, output.len() as u64);
    put(after, step.map(|step| [step.next, step.output]));
}

/// Next states and outputs of accepted rows; a refusal changes neither.
fn rowed(after: &mut Lent, given: &Given) {
    let [next, input, output] = three(after);
    let lengths = [next, output].map(|buffer| buffer.len() as u64);
    let rows = calls::rows(given, after.number(), lengths, input);
    put(after, rows.map(|rows| [rows.nexts, rows.outputs]));
}

/// The buffers of a call that has three.
fn three(lent: &Lent) -> [&[u8]; 3] {
    [0, 1, 2].map(|k| lent.bytes[k].lent())
}

/// What goes over the first and the last of them.
fn put(after: &mut Lent, outcome: Result<[Vec<u8>; 2], Refusal>) {
    if let Ok([first, last]) = &outcome {
        after.bytes[0].lent_mut().copy_from_slice(first);
        after.bytes[2].lent_mut().copy_from_slice(last);
    }
    answer(after, outcome, |_| Vec::new());
}

/// Marks on the first bytes of the buffer; a refusal changes none.
fn explained(after: &mut Lent, given: &Given) {
    let [state, input, buffer] = three(after);
    let marks = calls::explain(given, state, input, after.number(), buffer.len() as u64);
    if let Ok(marks) = &marks {
        after.bytes[2].lent_mut()[..marks.len()].copy_from_slice(marks);
    }
    answer(after, marks, |_| Vec::new());
}

/// One row of table 4 and the values; a refusal changes neither.
fn rewired(after: &mut Lent, given: &Given) {
    let [gate, one, other] = *after.numbers.as_slice() else {
        unreachable!("rewiring has three numbers");
    };
    let outcome = calls::rewire(given, gate, [one as u32, other as u32], after.bytes[0].lent());
    if let Ok((circuit, values)) = &outcome {
        let gates = circuit.gates.as_flattened();
        after.tables[3].lent_mut()[..gates.len()].copy_from_slice(gates);
        after.bytes[0].lent_mut().copy_from_slice(values);
    }
    answer(after, outcome, |_| Vec::new());
}

/// Whether the tables hold a circuit in binary order.
pub fn in_order(lent: &Lent) -> bool {
    tables::check(&given(lent)).is_ok_and(|circuit| tables::binary_order(&circuit).is_ok())
}

/// The circuit of tables that hold one.
pub fn circuit(lent: &Lent) -> Circuit {
    tables::check(&given(lent)).expect("accepted tables")
}

/// But for table 6, which is no part of a circuit.
fn given(lent: &Lent) -> Given {
    let counts = lent.counts.lent().try_into().expect("seven counts");
    let lengths: Vec<u64> = lent.written.iter().map(|table| table.lent().len() as u64).collect();
    Given {
        counts: Counts::new(counts),
        tables: lent.tables.each_ref().map(|table| table.lent().to_vec()),
        scratch: lent.scratch.lent().len() as u64,
        written: lengths.try_into().ok(),
        sixth: None,
    }
}

/// Number and place, then the values of an accepted call or zeros.
fn answer<T>(after: &mut Lent, outcome: Result<T, Refusal>, values: impl Fn(T) -> Vec<u64>) {
    let answer = after.answer.lent_mut();
    answer.fill(0);
    match outcome {
        Ok(accepted) => answer[2..].copy_from_slice(&values(accepted)),
        Err(refusal) => answer[..2].copy_from_slice(&[refusal.number, refusal.place]),
    }
}

/// How the call went, taken from what it left.
pub fn outcome(after: &Lent) -> Result<(), Refusal> {
    match *after.answer.lent() {
        [0, ..] => Ok(()),
        [number, place, ..] => Err(Refusal { number, place }),
        _ => unreachable!("an answer starts with number and place"),
    }
}
