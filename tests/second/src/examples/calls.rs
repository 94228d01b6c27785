//! The calls on tables, on the circuits of the examples.

use crate::aiger::tables::binary_order;
use crate::aiger::{cards, step, write, Circuit, Form};
use crate::compare::tables::compare;
use crate::generate::given;
use crate::library::{Call, Lent, Library};
use crate::memory::Memory;

const JUNK: u64 = 1 << 33 | 1;

/// Every call; each vector of the list is stepped from the state that the ones before it lead to.
pub fn called(library: &dyn Library, circuit: &Circuit, tail: &[u8], list: &[&[u8]]) -> Result<(), String> {
    for call in Call::ALL {
        match call {
            Call::WriteCards => {
                let mut lent = exactly(call, circuit, &[if cards::can_hold(circuit) { b"" } else { tail }]);
                lent.bytes.push(Memory::junk(cards::file(circuit).len() as u64, JUNK));
                compare(library, call, &lent)?;
            }
            Call::WriteText => compare(library, call, &writing(call, Form::Text, circuit, tail))?,
            Call::WriteBinary => compare(library, call, &writing(call, form(circuit), circuit, tail))?,
            Call::Step | Call::StepPlain => {
                for ((state, _), input) in step::run(circuit, list.iter().copied()).zip(list) {
                    compare(library, call, &stepping(call, circuit, &state, input))?;
                }
            }
            Call::Explain => {
                for ((state, _), input) in step::run(circuit, list.iter().copied()).zip(list) {
                    for output in 0..=circuit.outputs.len() as u64 {
                        let mut lent = exactly(call, circuit, &[&state, input, &[b'?'; 9]]);
                        lent.numbers = vec![output];
                        compare(library, call, &lent)?;
                    }
                }
            }
            Call::Rewire => {
                for ((state, _), input) in step::run(circuit, list.iter().copied()).zip(list) {
                    for gate in 0..=circuit.gates.len() as u64 {
                        let values = step::values(circuit, &state, input);
                        let mut lent = exactly(call, circuit, &[&values]);
                        lent.numbers = vec![gate, 1, 2];
                        compare(library, call, &lent)?;
                    }
                }
            }
            Call::Rows => {
                let mut lent = exactly(call, circuit, &[]);
                let lengths = [circuit.latches.len(), circuit.inputs.len(), circuit.outputs.len()];
                let rows = lengths.map(|length| Memory::junk((length * list.len()) as u64, JUNK));
                lent.bytes = rows.into_iter().collect();
                lent.bytes[1] = Memory::around(&list.concat(), JUNK);
                lent.numbers = vec![list.len() as u64];
                compare(library, call, &lent)?;
            }
            Call::Witness | Call::Witness3 | Call::Report | Call::ReportRows => {
                let mut lent = exactly(call, circuit, &[&list.concat()]);
                lent.numbers = vec![list.len() as u64];
                lent.numbers.extend((call == Call::Witness).then_some(1000));
                compare(library, call, &lent)?;
            }
            Call::Check | Call::Convert | Call::Reduce | Call::Drop => {
                compare(library, call, &exactly(call, circuit, &[]))?;
            }
        }
    }
    Ok(())
}

fn exactly(call: Call, circuit: &Circuit, bytes: &[&[u8]]) -> Lent {
    let mut lent = given::lend(call, &given::exactly(call, circuit), JUNK);
    lent.bytes = bytes.iter().map(|vector| Memory::around(vector, JUNK)).collect();
    lent
}

/// The form in which a circuit can be written at all.
fn form(circuit: &Circuit) -> Form {
    match binary_order(circuit) {
        Ok(()) => Form::Binary,
        Err(_) => Form::Text,
    }
}

/// A buffer of just enough bytes for this form.
fn writing(call: Call, form: Form, circuit: &Circuit, tail: &[u8]) -> Lent {
    let mut lent = exactly(call, circuit, &[tail]);
    let room = write::file(circuit, form, tail).len() as u64;
    lent.bytes.push(Memory::junk(room, JUNK));
    lent
}

fn stepping(call: Call, circuit: &Circuit, state: &[u8], input: &[u8]) -> Lent {
    let mut lent = exactly(call, circuit, &[state, input]);
    lent.bytes.push(Memory::junk(circuit.outputs.len() as u64, JUNK));
    lent
}
