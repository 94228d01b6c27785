//! Bytes that can't stand there (1), in the header and in the lines of numbers.

use super::{fields, harm, line_end, line_of, position, sibling, some_number, Damage, Harm, Slot, Spot};
use crate::aiger::Circuit;
use crate::generate::draft::Draft;
use crate::random::Random;

pub const ALL: &[Damage] = &[
    name,
    zero_before,
    byte_before,
    byte_after,
    space_after,
    emptied,
    missing,
    extra,
    joined,
    split,
];

fn name(random: &mut Random, _: &Circuit, draft: &mut Draft) -> Option<Harm> {
    let (name, place): (&[u8], usize) = *random.pick(&[
        (b"" as &[u8], 0),
        (b"a", 1),
        (b"aa", 2),
        (b"agg", 1),
        (b"aga", 1),
        (b"aai", 2),
        (b"aagg", 3),
        (b"aig1", 3),
        (b"aag ", 4),
        (b" aag", 0),
        (b"Aag", 0),
        (b"aIg", 1),
        (b"aig\t", 3),
        (b"\xef\xbb\xbfaag", 0),
    ]);
    draft.name = name.to_vec();
    harm(1, Spot::Exactly(place))
}

fn zero_before(random: &mut Random, _: &Circuit, draft: &mut Draft) -> Option<Harm> {
    let (slot, digits) = some_number(random, draft);
    digits.insert(0, b'0');
    harm(1, Spot::Number(slot, 1))
}

fn byte_before(random: &mut Random, _: &Circuit, draft: &mut Draft) -> Option<Harm> {
    let (slot, digits) = some_number(random, draft);
    digits.insert(0, *random.pick(b" \t\r\n-+ax_/:\0\x7f\xff"));
    harm(1, Spot::Number(slot, 0))
}

fn byte_after(random: &mut Random, _: &Circuit, draft: &mut Draft) -> Option<Harm> {
    let (slot, digits) = some_number(random, draft);
    digits.push(*random.pick(b"\t\r-+ax./:\0\x7f\x80\xff"));
    let before = digits.len() - 1;
    harm(1, Spot::Number(slot, before))
}

/// A second space between numbers, or one before the new line, which may be that of a number left off.
fn space_after(random: &mut Random, _: &Circuit, draft: &mut Draft) -> Option<Harm> {
    let (slot, digits) = some_number(random, draft);
    digits.push(b' ');
    let length = digits.len();
    let full = position(slot) + 1 == *fields(draft, slot).end();
    harm(1, Spot::Number(slot, if full { length - 1 } else { length }))
}

fn emptied(random: &mut Random, _: &Circuit, draft: &mut Draft) -> Option<Harm> {
    let (slot, digits) = some_number(random, draft);
    digits.clear();
    harm(1, Spot::Number(slot, 0))
}

/// The last number of a line is left out.
fn missing(random: &mut Random, _: &Circuit, draft: &mut Draft) -> Option<Harm> {
    let (slot, _) = some_number(random, draft);
    let least = *fields(draft, slot).start();
    let line = line_of(draft, slot);
    if line.len() < 2 {
        return None;
    }
    line.pop();
    // Without a number that may be left off the line is whole.
    if line.len() >= least {
        return None;
    }
    harm(1, line_end(draft, slot))
}

fn extra(random: &mut Random, _: &Circuit, draft: &mut Draft) -> Option<Harm> {
    let (slot, digits) = some_number(random, draft);
    let copy = digits.clone();
    let end = line_end(draft, slot);
    let most = *fields(draft, slot).end();
    let line = line_of(draft, slot);
    line.push(copy);
    if line.len() <= most {
        return None;
    }
    harm(1, end)
}

/// The space between two numbers is left out.
fn joined(random: &mut Random, _: &Circuit, draft: &mut Draft) -> Option<Harm> {
    let (slot, _) = some_number(random, draft);
    let k = position(slot);
    let least = *fields(draft, slot).start();
    let line = line_of(draft, slot);
    if k + 1 == line.len() {
        return None;
    }
    let second = line.remove(k + 1);
    let zero_first = line[k] == b"0";
    line[k].extend(second);
    if zero_first {
        return harm(1, Spot::Number(slot, 1));
    }
    if line.len() >= least {
        return None;
    }
    harm(1, line_end(draft, slot))
}

/// A new line instead of a space between two numbers.
fn split(random: &mut Random, _: &Circuit, draft: &mut Draft) -> Option<Harm> {
    let (slot, _) = some_number(random, draft);
    let (Slot::Field(line, k), true) = (slot, position(slot) > 0) else {
        return None;
    };
    let least = *fields(draft, slot).start();
    let rest = draft.lines[line].split_off(k);
    draft.lines.insert(line + 1, rest);
    if k >= least {
        return None;
    }
    let length = draft.lines[line][k - 1].len();
    harm(1, Spot::Number(sibling(slot, k - 1), length))
}
