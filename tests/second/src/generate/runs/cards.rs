//! Plans of the filer, which are cards, and of the carder, which go on cards.

use super::plan::{form, Made};
use super::turns::Turn;
use super::Plan;
use crate::aiger::programs::{LENT, LONGEST};
use crate::aiger::{Form, Refusal};
use crate::generate;
use crate::generate::cards::Cards;
use crate::generate::circuit::{circuit, Size};
use crate::generate::draft::Draft;
use crate::random::Random;

/// Cards, whole and damaged, or about as many as the programs have room for.
pub fn of_cards(random: &mut Random, turn: Turn) -> Option<Made> {
    match turn {
        Turn::Plan(13, _) => {
            let length = *random.pick(&[LONGEST + 1, 2 * LONGEST]);
            let file = (0..length).map(|k| b"PHPLPOPA\0\x01"[k % 10]).collect();
            let place = LONGEST as u64;
            Some((Plan::File(file), Some(Refusal { number: 13, place })))
        }
        Turn::Plan(4, table) => Some((Plan::File(many_cards(random, table, 1)), None)),
        Turn::Accepted if random.once_in(6) => {
            let table = random.between(1, 5) as u64;
            Some((Plan::File(many_cards(random, table, 0)), None))
        }
        _ => {
            let file = generate::cards::some(random, turn.number());
            Some((Plan::File(file), None))
        }
    }
}

/// As many records as a table that is lent has room for, or one more.
fn many_cards(random: &mut Random, table: u64, over: usize) -> Vec<u8> {
    let mut size = Size {
        i: random.below(5),
        l: random.below(5),
        o: random.below(5),
        a: random.below(9),
        ..Size::default()
    };
    match table {
        1 => size.i = LENT[0] as usize - 100 + 101 * over,
        2 => size.l = LENT[1] as usize / 2 + over,
        3 => size.o = LENT[2] as usize + over,
        4 => size.a = LENT[3] as usize / 3 + over,
        // Table 5: 4 x (M + 1) + O.
        _ => (size.i, size.l, size.a, size.o) = (4000, 3, 2, 16_384 - 4 * 4006 + over),
    }
    let circuit = circuit(random, Form::Binary, &size);
    Cards::new(&circuit).file()
}

/// A circuit that cards can hold, in either form; its order is that of a form.
pub fn without_tail(random: &mut Random, order: Form) -> Vec<u8> {
    let made = if order == Form::Text { Form::Text } else { form(random) };
    let mut size = generate::circuit::size(random, order);
    (size.b, size.c, size.starts, size.i) = (0, 0, false, size.i.min(40));
    let circuit = circuit(random, order, &size);
    let mut draft = Draft::new(random, made, &circuit);
    draft.symbols.clear();
    draft.comment.clear();
    draft.layout().file
}

/// A circuit in binary order with something that cards can't hold: a tail, a reset, a bad state, a constraint.
pub fn too_much(random: &mut Random) -> Vec<u8> {
    let mut size = generate::circuit::size(random, Form::Binary);
    (size.b, size.c, size.starts, size.i) = (0, 0, false, size.i.min(40));
    let way = random.below(4);
    match way {
        0 => size.starts = true,
        1 => size.b = 1,
        2 => size.c = 1,
        _ => {}
    }
    let form = form(random);
    let circuit = circuit(random, Form::Binary, &size);
    let mut draft = Draft::new(random, form, &circuit);
    if way < 3 {
        draft.symbols.clear();
        draft.comment.clear();
    }
    draft.layout().file
}
