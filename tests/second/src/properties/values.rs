//! Values of a circuit, of what it converts to, of what it reduces to, and of that without its unused gates.

use super::FEW_GATES;
use crate::aiger::calls;
use crate::aiger::convert::Converted;
use crate::aiger::fillings::{self, MOST_X, NO, UNDECIDED, YES};
use crate::aiger::report::MOST_STEPS;
use crate::aiger::rows::Rows;
use crate::aiger::step::{self, Step};
use crate::aiger::tables::Given;
use crate::aiger::{refuse, variable, Circuit};
use crate::ensure;
use crate::generate::given;
use crate::generate::values::{ground, vector};
use crate::library::Call;
use crate::naive;
use crate::random::Random;

/// The length of the lists that are stepped.
const STEPS: usize = 4;

pub fn check(
    random: &mut Random,
    circuit: &Circuit,
    converted: &Converted,
    [reduced, dropped]: [&Circuit; 2],
) -> Result<(), String> {
    let unknown = random.below(4);
    let list: Vec<Vec<u8>> = (0..STEPS)
        .map(|_| vector(random, unknown, circuit.inputs.len()))
        .collect();
    let steps = run(circuit, None, &list);
    ensure!(follow(circuit, &steps), "the states don't follow each other: {steps:?}");
    ensure!(
        steps == run(&converted.circuit, None, &list),
        "steps differ after conversion"
    );
    let fewer = run(reduced, None, &list);
    ensure!(refines(&fewer, &steps), "{fewer:?} after reduction, {steps:?} before");
    ensure!(fewer == run(dropped, None, &list), "steps differ without unused gates");
    // Each x gets a value, of the first state too.
    let grounded: Vec<Vec<u8>> = list.iter().map(|input| ground(random, input)).collect();
    let first = ground(random, &step::start(circuit));
    let known = run(circuit, Some(&first), &grounded);
    ensure!(
        refines(&known, &steps),
        "{known:?} with values for x, {steps:?} without"
    );
    ensure!(
        known == run(reduced, Some(&first), &grounded),
        "without x steps differ after reduction"
    );
    ensure!(!shown(&steps) || shown(&known), "a witness lost by values for x");
    witness(&converted.circuit, reduced, &list, shown(&steps))?;
    reports(&converted.circuit, &list, &steps)?;
    fillings(random, &converted.circuit, &list, shown(&steps))?;
    rows(&converted.circuit, &list)?;
    explanations(&converted.circuit, &steps, &list)?;
    plainly(&converted.circuit, &steps, &list)?;
    rewired(random, &converted.circuit, &steps[0].0, &list[0])?;
    if circuit.gates.len() <= FEW_GATES {
        slowly(random, circuit, converted, unknown)?;
    }
    Ok(())
}

/// From the resets or from another state.
fn run(circuit: &Circuit, first: Option<&[u8]>, list: &[Vec<u8>]) -> Vec<(Vec<u8>, Step)> {
    let first = first.map_or_else(|| step::start(circuit), <[u8]>::to_vec);
    step::run_from(circuit, first, list.iter().map(Vec::as_slice)).collect()
}

/// Whether the first state is what the resets say and each later one the next state of the step before.
fn follow(circuit: &Circuit, steps: &[(Vec<u8>, Step)]) -> bool {
    let reset = |(k, &value): (usize, &u8)| match value {
        b'0' => circuit.resets[k] == 0,
        b'1' => circuit.resets[k] == 1,
        _ => circuit.resets[k] == circuit.latches[k][0],
    };
    steps[0].0.iter().enumerate().all(reset) && steps.windows(2).all(|pair| pair[1].0 == pair[0].1.next)
}

/// Whether at some step an output or a bad state is "1" and no constraint is anything else up to it.
fn shown(steps: &[(Vec<u8>, Step)]) -> bool {
    let constraints = |last: usize| steps[..=last].iter().flat_map(|(_, step)| &step.constraint);
    let asked = |k: usize| steps[k].1.output.iter().chain(&steps[k].1.bad);
    (0..steps.len()).any(|k| asked(k).any(|&value| value == b'1') && constraints(k).all(|&value| value == b'1'))
}

/// Whether the one has the other's "0" and "1" at least.
fn refines(one: &[(Vec<u8>, Step)], other: &[(Vec<u8>, Step)]) -> bool {
    let all = |steps: &[(Vec<u8>, Step)]| -> Vec<u8> {
        steps
            .iter()
            .flat_map(|(state, step)| {
                [state, &step.output, &step.bad, &step.constraint, &step.next]
                    .map(Vec::clone)
                    .concat()
            })
            .collect()
    };
    let (one, other) = (all(one), all(other));
    one.len() == other.len() && one.iter().zip(&other).all(|(a, b)| a == b || *b == b'x')
}

/// The witness question says what stepping shows, and reduction loses no witness.
fn witness(circuit: &Circuit, reduced: &Circuit, list: &[Vec<u8>], shown: bool) -> Result<(), String> {
    let bytes = list.concat();
    let ask = |circuit: &Circuit, number: usize, bytes: &[u8]| {
        calls::witness3(&Given::exactly(circuit), number as u64, bytes)
    };
    let given = ask(circuit, list.len(), &bytes);
    ensure!(given == Ok(shown), "witness: expected {shown}, given {given:?}");
    ensure!(
        !shown || ask(reduced, list.len(), &bytes) == Ok(true),
        "a witness lost by reduction"
    );
    ensure!(ask(circuit, 0, &[]) == Ok(false), "an empty list is a witness");
    Ok(())
}

/// The report of a list is what a count over its steps gives, one after another.
fn reports(circuit: &Circuit, list: &[Vec<u8>], steps: &[(Vec<u8>, Step)]) -> Result<(), String> {
    let given = given::exactly(Call::Report, circuit);
    let report = |list: &[Vec<u8>]| calls::report(&given, list.len() as u64, &list.concat());
    let Ok(whole) = report(list) else {
        return Err("a report is refused".to_string());
    };
    let mut counted = vec![[0; 4]; circuit.outputs.len() + circuit.latches.len()];
    let mut last: Option<Vec<u8>> = None;
    for (state, step) in steps {
        let values = [step.output.as_slice(), state].concat();
        for (place, (numbers, &value)) in counted.iter_mut().zip(&values).enumerate() {
            let at = b"01x".iter().position(|&known| known == value).expect("a value");
            numbers[at] += 1;
            numbers[3] += u32::from(last.as_ref().is_some_and(|last| last[place] != value));
        }
        last = Some(values);
    }
    ensure!(whole == counted, "reported {whole:?}, counted {counted:?}");
    let none = report(&[]);
    ensure!(none == Ok(vec![[0; 4]; counted.len()]), "without vectors {none:?}");
    let many = calls::report(&given, MOST_STEPS + 1, b"?");
    ensure!(many == refuse(13, 65_536), "too many vectors: {many:?}");
    Ok(())
}

/// So many fillings are tried here.
const FEW_FILLINGS: u64 = 64;

/// The witness question against all lists and first states that fill the given ones, and with other allowances.
fn fillings(random: &mut Random, circuit: &Circuit, list: &[Vec<u8>], shown: bool) -> Result<(), String> {
    let vectors: Vec<&[u8]> = list.iter().map(Vec::as_slice).collect();
    let values = fillings::values(circuit, &vectors);
    let unknown = fillings::unknown(&values);
    let given = Given::exactly(circuit);
    let ask = |allowance| calls::witness(&given, list.len() as u64, &list.concat(), allowance);
    if unknown > MOST_X {
        ensure!(ask(0) == refuse(20, unknown), "{unknown} x: {:?}", ask(0));
        return Ok(());
    }
    if 1 << unknown > FEW_FILLINGS || circuit.gates.len() > FEW_GATES {
        return Ok(());
    }
    let mut all = Vec::new();
    naive::fillings(&values, &mut all);
    let shows = |filling: &Vec<u8>| fillings::shows(circuit, list.len(), filling);
    let failing = all.iter().position(|filling| !shows(filling));
    let decided = failing.map_or(all.len(), |first| first + 1) as u64;
    let says = if failing.is_none() { YES } else { NO };
    ensure!(!shown || says == YES, "a yes of the old question is lost");
    for allowance in [0, decided - 1, decided, u64::MAX, random.below(70) as u64] {
        let expected = if allowance < decided {
            [UNDECIDED, allowance]
        } else {
            [says, decided]
        };
        let verdict = ask(allowance).map(|verdict| [verdict.says, verdict.tried]);
        ensure!(
            verdict == Ok(expected),
            "{allowance} allowed: expected {expected:?}, given {verdict:?}"
        );
    }
    Ok(())
}

/// Each row is the first step of a list of its own, and the report tells what the rows have.
fn rows(circuit: &Circuit, list: &[Vec<u8>]) -> Result<(), String> {
    let first: Vec<Step> = list
        .iter()
        .map(|input| run(circuit, None, std::slice::from_ref(input)).remove(0).1)
        .collect();
    let (number, bytes) = (list.len() as u64, list.concat());
    let lengths = [
        number * circuit.latches.len() as u64,
        number * circuit.outputs.len() as u64,
    ];
    let rows = calls::rows(&Given::exactly(circuit), number, lengths, &bytes);
    let expected = Rows {
        nexts: first
            .iter()
            .map(|step| step.next.as_slice())
            .collect::<Vec<_>>()
            .concat(),
        outputs: first
            .iter()
            .map(|step| step.output.as_slice())
            .collect::<Vec<_>>()
            .concat(),
    };
    ensure!(rows == Ok(expected.clone()), "rows {rows:?}, steps {expected:?}");
    let report = calls::report_rows(&given::exactly(Call::ReportRows, circuit), number, &bytes);
    let mut counted = vec![[0; 3]; circuit.outputs.len()];
    for (at, value) in expected.outputs.iter().enumerate() {
        let value = b"01x".iter().position(|known| known == value).expect("a value");
        counted[at % circuit.outputs.len()][value] += 1;
    }
    ensure!(report == Ok(counted.clone()), "report {report:?}, counted {counted:?}");
    Ok(())
}

/// So many outputs are explained.
const FEW_OUTPUTS: usize = 3;

/// With every unmarked place turned to x the output keeps its value; marks stand on 0 or 1, where the walk leads.
fn explanations(circuit: &Circuit, steps: &[(Vec<u8>, Step)], list: &[Vec<u8>]) -> Result<(), String> {
    let given = Given::exactly(circuit);
    let ((state, step), input) = (&steps[STEPS - 1], &list[STEPS - 1]);
    let places = state.len() + input.len();
    let explain = |output: usize, room: usize| calls::explain(&given, state, input, output as u64, room as u64);
    let outputs = circuit.outputs.len();
    ensure!(explain(outputs, 0) == refuse(17, 1), "an output not there");
    for (k, &output) in circuit.outputs.iter().enumerate().take(FEW_OUTPUTS) {
        if step.output[k] == b'x' {
            ensure!(explain(k, 0) == refuse(17, 2), "an output that is x");
            continue;
        }
        if places > 0 {
            ensure!(explain(k, places - 1) == refuse(11, places), "a short buffer");
        }
        let marks = explain(k, places).map_err(|refusal| refusal.line())?;
        let [masked_state, masked_input] = masked(&marks, state, input);
        let again = step::step(circuit, &masked_state, &masked_input).output[k];
        ensure!(again == step.output[k], "output {k} is lost with marks {marks:?}");
        let values = [state.as_slice(), input].concat();
        let mut marked = marks.iter().zip(&values).filter(|(&mark, _)| mark == b'1');
        ensure!(marked.all(|(_, &value)| value != b'x'), "an x is marked: {marks:?}");
        if circuit.gates.len() <= FEW_GATES {
            let all = step::values(circuit, state, input);
            let blamed = naive::blamed(circuit, &all, variable(output));
            let sources = circuit
                .latches
                .iter()
                .map(|latch| latch[0])
                .chain(circuit.inputs.clone());
            let expected: Vec<u8> = sources
                .map(|source| b"01"[usize::from(blamed[variable(source)])])
                .collect();
            ensure!(marks == expected, "marked {marks:?}, blamed {expected:?}");
        }
    }
    Ok(())
}

/// State and input with x at every place without a mark.
pub fn masked(marks: &[u8], state: &[u8], input: &[u8]) -> [Vec<u8>; 2] {
    let (latches, inputs) = marks.split_at(state.len());
    [(latches, state), (inputs, input)].map(|(marks, values)| {
        let all = marks.iter().zip(values);
        all.map(|(&mark, &value)| if mark == b'1' { value } else { b'x' })
            .collect()
    })
}

/// The plain engine gives what the stepper gives.
fn plainly(circuit: &Circuit, steps: &[(Vec<u8>, Step)], list: &[Vec<u8>]) -> Result<(), String> {
    let given = Given::exactly(circuit);
    let outputs = circuit.outputs.len() as u64;
    for ((state, step), input) in steps.iter().zip(list) {
        let plain = calls::step_plain(&given, state, input, outputs);
        let gates = circuit.gates.len();
        let expected = if gates > 24 {
            refuse(24, gates)
        } else {
            Ok(step.clone())
        };
        ensure!(plain == expected, "plainly {plain:?}, stepped {expected:?}");
    }
    Ok(())
}

/// After an edit values are those of a fresh step, other gates stay, and so do values that don't depend on the gate.
fn rewired(random: &mut Random, circuit: &Circuit, state: &[u8], input: &[u8]) -> Result<(), String> {
    let given = Given::exactly(circuit);
    let values = step::values(circuit, state, input);
    let a = circuit.gates.len();
    let none = calls::rewire(&given, a as u64, [0, 0], &values);
    ensure!(none == refuse(22, a), "no such gate: {none:?}");
    if a == 0 || a > FEW_GATES {
        return Ok(());
    }
    let gate = random.below(a);
    let [lhs, ..] = circuit.gates[gate];
    let [one, other] = [0, 1].map(|_| random.below(lhs as usize) as u32);
    let (edited, after) =
        calls::rewire(&given, gate as u64, [one, other], &values).map_err(|refusal| refusal.line())?;
    let mut back = edited.clone();
    back.gates[gate] = circuit.gates[gate];
    ensure!(back == *circuit, "another gate changed: {edited:?}");
    ensure!(
        edited.gates[gate] == [lhs, one.max(other), one.min(other)],
        "{edited:?}"
    );
    ensure!(
        calls::reduce(&Given::exactly(&edited)).is_ok(),
        "no longer in binary order"
    );
    ensure!(after == naive::values(&edited, state, input), "no fresh values");
    let depends = naive::depends(&edited);
    for (k, [lhs, ..]) in edited.gates.iter().enumerate() {
        let v = variable(*lhs);
        ensure!(
            k == gate || depends[k][gate] || after[v] == values[v],
            "variable {v} changed"
        );
    }
    let exchanged = calls::rewire(&given, gate as u64, [other, one], &values);
    ensure!(exchanged == Ok((edited, after)), "sides exchanged: {exchanged:?}");
    Ok(())
}

/// One step against the slow definition, and each variable against its new name.
fn slowly(random: &mut Random, circuit: &Circuit, converted: &Converted, unknown: usize) -> Result<(), String> {
    let input = vector(random, unknown, circuit.inputs.len());
    let state = vector(random, unknown, circuit.latches.len());
    let quick = step::values(circuit, &state, &input);
    let slow = naive::values(circuit, &state, &input);
    let renamed = step::values(&converted.circuit, &state, &input);
    for (literal, _) in circuit.defining() {
        let v = variable(literal);
        ensure!(quick[v] == slow[v], "variable {v} is {} and {}", quick[v], slow[v]);
        let new = converted.became[v];
        ensure!(
            quick[v] == renamed[new],
            "variable {v} is {}, {new} is {}",
            quick[v],
            renamed[new]
        );
    }
    let all = |literals: Vec<u32>| -> Vec<u8> { literals.iter().map(|&literal| step::value(&slow, literal)).collect() };
    let expected = Step {
        output: all(circuit.outputs.clone()),
        bad: all(circuit.bads.clone()),
        constraint: all(circuit.constraints.clone()),
        next: all(circuit.latches.iter().map(|latch| latch[1]).collect()),
    };
    ensure!(step::step(circuit, &state, &input) == expected, "a step differs");
    Ok(())
}
