//! The tail and the buffer of a writer: 1, 10, 19, 11.

use super::turns::{Beside, CANNOT_HOLD};
use super::TablesCase;
use crate::aiger::cards::can_hold;
use crate::aiger::{refuse, Circuit, Form, Refusal};
use crate::generate::cards::Cards;
use crate::generate::damage::damage;
use crate::generate::draft::Draft;
use crate::library::Call;
use crate::memory::Memory;
use crate::random::Random;

/// Adds both to a case whose promise speaks of the tables alone. The tail may be wrong and the buffer short even if the
/// tables are refused, since those come first. None if the tail can't be made wrong in the chosen way.
pub fn add(random: &mut Random, call: Call, circuit: &Circuit, beside: Beside, case: &mut TablesCase) -> Option<()> {
    let mut draft = writable(random, call, circuit, case);
    if call == Call::WriteCards {
        choose_tail(random, beside, &mut draft);
    }
    let tail_is = wrong_tail(random, circuit, beside, &mut draft)?;
    let layout = draft.layout();
    let tail = Memory::around(&layout.file[layout.tail..], random.word());
    let (file, held) = match call {
        Call::WriteCards => (Cards::new(circuit).file(), tail.lent().is_empty() && can_hold(circuit)),
        _ => (layout.file, true),
    };
    let holds = if held { Ok(()) } else { refuse(19, 0) };
    let short = beside.wants(random, 11);
    let room = room(random, short, file.len());
    let fits = if short { refuse(11, file.len()) } else { Ok(()) };
    let promise = tail_is.and(holds).and(fits);
    if case.promise == Some(Ok(())) {
        case.file = promise.is_ok().then_some(file);
        case.promise = Some(promise);
    }
    case.lent.bytes = vec![tail, Memory::junk(room as u64, random.word())];
    Some(())
}

/// The draft of a file. Binary needs its order, which only tables that are promised have for certain.
fn writable(random: &mut Random, call: Call, circuit: &Circuit, case: &TablesCase) -> Draft {
    let form = match call {
        Call::WriteBinary if case.promise == Some(Ok(())) => Form::Binary,
        _ => Form::Text,
    };
    Draft::new(random, form, circuit)
}

/// Cards hold no tail: there is one only where that is to be told, or may be.
fn choose_tail(random: &mut Random, beside: Beside, draft: &mut Draft) {
    let way = beside.way(random, 19, &CANNOT_HOLD);
    if way != Some(0) {
        draft.symbols.clear();
        draft.comment.clear();
    } else if draft.symbols.is_empty() {
        draft.comment = b"c\n".to_vec();
    }
}

/// What is told of the tail, its offsets within it.
fn wrong_tail(
    random: &mut Random,
    circuit: &Circuit,
    beside: Beside,
    draft: &mut Draft,
) -> Option<Result<(), Refusal>> {
    // Damage calls 1 in the tail 0.
    let aim = match [1, 10].map(|number| beside.wants(random, number)) {
        [true, _] => 0,
        [_, true] => 10,
        _ => return Some(Ok(())),
    };
    let harm = damage(random, aim, circuit, draft)?;
    let layout = draft.layout();
    let Refusal { number, place } = harm.refusal(&layout);
    Some(refuse(number, place as usize - layout.tail))
}

/// Too short by one byte, by many or empty; else exactly enough or with spare bytes.
pub fn room(random: &mut Random, short: bool, needed: usize) -> usize {
    match (short, random.below(4)) {
        (true, 0) => 0,
        (true, 1) => random.below(needed),
        (true, _) => needed - 1,
        (false, 0 | 1) => needed,
        (false, 2) => needed + 1,
        (false, _) => needed + random.between(2, 80),
    }
}
