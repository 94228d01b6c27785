//! Cards that are wrong in one way, and what is told of them; none if there was no place for it.

use super::turns::Turn;
use super::Cards;
use crate::aiger::{Circuit, Lengths, Refusal, MOST, TABLES};
use crate::random::Random;

/// 4, if the table is the least that is too short.
pub fn too_short(table: u64, needed: &Lengths, lengths: &Lengths) -> Option<Refusal> {
    let least = (0..8).find(|&k| lengths[k] < needed[k]).map(|k| TABLES[k]);
    (least == Some(table)).then(|| told(4, table))
}

fn told(number: u64, place: u64) -> Refusal {
    Refusal { number, place }
}

/// Too short, by one byte or by many, or too long.
pub fn cut(random: &mut Random, turn: Turn, cards: &Cards) -> (Vec<u8>, Refusal) {
    let mut file = cards.file();
    let end = file.len();
    match (turn, random.below(3)) {
        (Turn::OneByteLess, _) => file.truncate(end - 1),
        (Turn::OneByteMore, _) => file.push(random.byte()),
        (_, 0) => file.truncate(random.below(22)),
        (_, 1) => file.truncate(random.below(end)),
        _ => file.extend(cards.file()),
    }
    let place = end.min(file.len());
    (file, told(1, place as u64))
}

/// A count says another length: a little other, as large as can be, or such that 32 bits don't tell.
pub fn lengthened(random: &mut Random, cards: &mut Cards, k: usize) -> Option<Refusal> {
    let length = cards.file().len() as u64;
    let bytes = if k == 4 { 10 } else { 6 };
    let count = &mut cards.head()[k];
    let before = u64::from(*count);
    *count = match random.below(7) {
        0 => *count + 1,
        1 => count.saturating_sub(1),
        2..=4 => u32::MAX,
        5 => *count + (1 << 31),
        _ => *count + random.between(1, 9) as u32,
    };
    let after = length + bytes * u64::from(*count) - bytes * before;
    (after != length).then(|| told(1, length.min(after)))
}

/// Marks, right ones at the wrong place too.
const MARKS: &[&[u8]] = &[b"PL", b"PO", b"PA", b"PH", b"pl", b"\0\0", b"LP", b"P\n"];

/// A mark of the head, a latch, an output or a gate is another, and perhaps a later one.
pub fn marked(random: &mut Random, cards: &mut Cards, kind: usize) -> Option<Refusal> {
    let own = [b"PH", b"PL", b"PO", b"PA"][kind];
    let [first, later] = cards.some(random, own)?;
    for record in [later, first] {
        let mark = &mut cards.0[record].0;
        let [any, at] = [random.byte(), random.below(2) as u8];
        if random.once_in(3) {
            mark[usize::from(at)] = any;
        } else {
            *mark = random.pick(MARKS).to_vec();
        }
    }
    (cards.0[first].0 != own).then(|| told(18, cards.offset(first) as u64))
}

/// M or I too large, perhaps I as well; L, O and A would be too many bytes.
pub fn counted(random: &mut Random, cards: &mut Cards, k: usize) -> Refusal {
    let any = random.word() as u32 | 1 << 20;
    for k in [k, 1].into_iter().take(random.between(1, 2)) {
        cards.head()[k] = *random.pick(&[MOST as u32 + 1, u32::MAX, 1 << 31, any]);
    }
    told(2, 2 + 4 * k as u64)
}

/// M is not I + L + A.
pub fn disagreeing(random: &mut Random, cards: &mut Cards) -> Refusal {
    let head = cards.head();
    let k = random.below(2);
    head[k] = match random.below(3) {
        0 if head[k] > 0 => head[k] - 1,
        1 if head[k] < MOST as u32 - 9 => head[k] + random.between(1, 9) as u32,
        _ if head[k] < MOST as u32 => head[k] + 1,
        _ => 0,
    };
    told(3, 0)
}

/// A literal of a table out of range, and perhaps a later one.
pub fn ranged(random: &mut Random, circuit: &Circuit, cards: &mut Cards, table: u64) -> Option<Refusal> {
    let most = 2 * circuit.m as u32 + 1;
    let own = [b"PL", b"PO", b"PA"][table as usize - 2];
    let [first, later] = cards.some(random, own)?;
    for record in [first, later] {
        let numbers = &mut cards.0[record].1;
        let at = random.below(numbers.len());
        numbers[at] = *random.pick(&[most + 1, most + 1, most + 2, 1 << 31, u32::MAX]);
    }
    Some(told(5, table))
}

/// A gate's sides in range, but not in order.
pub fn ordered(random: &mut Random, circuit: &Circuit, cards: &mut Cards) -> Option<Refusal> {
    let gates = circuit.gates.len();
    if gates == 0 {
        return None;
    }
    let gate = random.below(gates);
    let [lhs, rhs0, rhs1] = circuit.gates[gate];
    let above = random.between(lhs as usize, 2 * circuit.m as usize + 1) as u32;
    let sides = match random.below(3) {
        0 if rhs0 != rhs1 => [rhs1, rhs0],
        1 => [lhs, rhs1],
        _ => [above, rhs1],
    };
    let first = cards.0.len() - gates;
    cards.0[first + gate].1 = sides.to_vec();
    Some(told(15, 0))
}
