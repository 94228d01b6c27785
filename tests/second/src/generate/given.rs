//! Cases for the calls on tables, each made from a seed, a call and a number.

mod counts;
mod fillings;
mod marks;
mod order;
mod rows;
mod shape;
mod sides;
pub mod turns;
mod vectors;
mod words;
mod writing;

use super::circuit;
use super::lend::enough;
use crate::aiger::tables::{Given, Sixth};
use crate::aiger::{apart, with_scratch, Circuit, Counts, Form, Refusal};
use crate::library::{Call, Lent};
use crate::memory::Memory;
use crate::random::Random;
use turns::{round, Beside, Turn};

pub struct TablesCase {
    pub lent: Lent,
    /// Known from the way the case was made.
    pub promise: Option<Result<(), Refusal>>,
    /// What a writer gives if it accepts, laid out otherwise than a writer does it.
    pub file: Option<Vec<u8>>,
}

/// Damages given tables, at a table or a count if it is told so; the refusal that the paper gives for it, or none if
/// there was no place for it.
type Damage = fn(&mut Random, &Circuit, &mut Given, u64) -> Option<Refusal>;

fn damages(number: u64) -> &'static [Damage] {
    match number {
        2 => &[counts::too_large, counts::too_large, counts::wrapping],
        3 => &[counts::disagree],
        4 => &[counts::short, counts::short, counts::more],
        5 => &[words::out_of_range, words::out_of_range, words::out_of_range_and_second],
        6 => words::SECOND,
        7 => &[
            words::undefined,
            words::undefined_bad,
            words::undefined,
            words::undefined_and_cycle,
        ],
        8 => &[words::cycle],
        _ => order::ALL,
    }
}

pub fn case(call: Call, seed: u64, number: u64) -> TablesCase {
    // The calls' cases are apart from each other and from those of files.
    let mut random = Random::new(seed, (call as u64 + 1) << 40 | number);
    let round = round(call);
    let turn = round[(number % round.len() as u64) as usize];
    loop {
        let case = made(&mut random, call, turn);
        // A circuit may have no place for what is to be wrong.
        if let Some(case) = case.filter(|case| turn.is_met(call, case.promise)) {
            return case;
        }
    }
}

fn made(random: &mut Random, call: Call, turn: Turn) -> Option<TablesCase> {
    let form = form(random, call, turn);
    let size = shape::size(random, call, turn, form)?;
    let mut circuit = circuit::circuit(random, form, &size);
    if call == Call::Witness {
        fillings::settle(random, &mut circuit);
    }
    let mut given = exactly(call, &circuit);
    let promise = treat(random, call, turn, &circuit, &mut given);
    if !turn.spares_tables() && !turn.is_met(call, promise) {
        return None;
    }
    let mut case = TablesCase {
        lent: lend(call, &given, random.word()),
        promise,
        file: None,
    };
    add(random, call, &circuit, turn.beside(call), &mut case)?;
    Some(case)
}

/// What the call is given beside the tables.
fn add(random: &mut Random, call: Call, circuit: &Circuit, beside: Beside, case: &mut TablesCase) -> Option<()> {
    match call {
        Call::Check | Call::Convert | Call::Reduce | Call::Drop => {}
        Call::WriteText | Call::WriteBinary | Call::WriteCards => writing::add(random, call, circuit, beside, case)?,
        Call::Step => vectors::step(random, circuit, beside, case),
        Call::StepPlain => vectors::step_plain(random, circuit, beside, case),
        Call::Witness => fillings::add(random, circuit, beside, case),
        Call::Witness3 => vectors::witness(random, circuit, beside, case),
        Call::Report => vectors::report(random, circuit, beside, case),
        Call::Rows => rows::add(random, circuit, beside, case),
        Call::ReportRows => rows::add_report(random, circuit, beside, case),
        Call::Explain => marks::add(random, circuit, beside, case)?,
        Call::Rewire => sides::add(random, circuit, beside, case)?,
    }
    Some(())
}

/// A circuit's tables and all that the call is lent beside them, exactly as long as needed.
pub fn exactly(call: Call, circuit: &Circuit) -> Given {
    let given = Given::exactly(circuit);
    Given {
        written: given.written.filter(|_| call.writes_tables()),
        sixth: call.sixth().map(|needed| Sixth {
            needed,
            length: needed(&given.counts),
        }),
        ..given
    }
}

/// A circuit in text form may have any order.
fn form(random: &mut Random, call: Call, turn: Turn) -> Form {
    let ordered = turn.spares_tables() || matches!(turn, Turn::Tables(aim) if aim.number == 15);
    let binary = match (call.asks_order(), ordered) {
        (true, true) => 13,
        (true, false) if turn != Turn::Edited => 12,
        _ => 4,
    };
    if random.below(13) < binary {
        Form::Binary
    } else {
        Form::Text
    }
}

/// What is told of the tables, where the way they were treated shows it; spare words are put where they can't matter.
fn treat(
    random: &mut Random,
    call: Call,
    turn: Turn,
    circuit: &Circuit,
    given: &mut Given,
) -> Option<Result<(), Refusal>> {
    let promise = match turn {
        Turn::Nothing | Turn::Beside(_) => Some(Ok(())),
        Turn::Tables(aim) => random.pick(damages(aim.number))(random, circuit, given, aim.way).map(Err),
        Turn::Twice => {
            twice(random, call, circuit, given);
            None
        }
        Turn::Edited => {
            if random.once_in(2) {
                words::edit(random, circuit, given);
            }
            None
        }
        Turn::Unrelated => {
            unrelated(random, given);
            None
        }
    };
    if !matches!(promise, Some(Err(Refusal { number: 4, .. }))) {
        spare(random, given);
    }
    promise
}

/// Two of all that can be told of tables.
fn twice(random: &mut Random, call: Call, circuit: &Circuit, given: &mut Given) {
    let told = call.told_of_tables();
    let mut both = [*random.pick(&told), *random.pick(&told)];
    // A table is cut last, since the other damage looks for words of it.
    both.sort_by_key(|&(number, _)| number == 4);
    for (number, places) in both {
        let way = if places.is_empty() { 0 } else { *random.pick(places) };
        random.pick(damages(number))(random, circuit, given, way);
    }
}

/// Words past the counts are not looked at, whatever they are.
fn spare(random: &mut Random, given: &mut Given) {
    let lengths = given.tables.each_ref().map(|table| table.len() as u64);
    let (lengths, scratch) = apart(enough(random, &with_scratch(lengths, given.scratch)));
    for (table, length) in given.tables.iter_mut().zip(lengths) {
        let word = *random.pick(&[0, 2, u32::MAX, table.first().copied().unwrap_or(3)]);
        table.resize(length as usize, word);
    }
    given.scratch = scratch;
    if let Some(written) = given.written {
        given.written = Some(apart(enough(random, &with_scratch(written, 0))).0);
    }
    if let Some(sixth) = &mut given.sixth {
        sixth.length += *random.pick(&[0, 0, 1, 5, 40]);
    }
}

/// Counts and tables that have nothing to do with each other.
fn unrelated(random: &mut Random, given: &mut Given) {
    let most = *random.pick(&[3, 12, 30]);
    let mut length = || random.below(most + 1);
    let lengths = [0; 7].map(|_| length());
    given.written = given.written.map(|written| written.map(|_| length() as u64));
    given.sixth = given.sixth.map(|sixth| Sixth {
        length: length() as u64,
        ..sixth
    });
    given.counts = Counts::new([9, 3, 3, 3, 3, 2, 2].map(|most| random.below(most + 1) as u64));
    given.tables = lengths.map(|length| (0..length).map(|_| random.below(22) as u32).collect());
    given.scratch = random.between(30, 70) as u64;
}

/// All that a call on these tables is lent.
pub fn lend(call: Call, given: &Given, junk: u64) -> Lent {
    Lent {
        counts: Memory::around(&given.counts.list(), junk),
        tables: given.tables.each_ref().map(|table| Memory::around(table, junk)),
        scratch: Memory::junk(given.scratch, junk),
        written: given
            .written
            .iter()
            .filter(|_| call.writes_tables())
            .flatten()
            .copied()
            .chain(given.sixth.map(|sixth| sixth.length))
            .map(|length| Memory::junk(length, junk))
            .collect(),
        numbers: Vec::new(),
        bytes: Vec::new(),
        answer: Memory::junk(call.answers(), junk),
    }
}

fn refusal(number: u64, place: usize) -> Option<Refusal> {
    Some(Refusal {
        number,
        place: place as u64,
    })
}
