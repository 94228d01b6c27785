//! Counts too large or against each other, and tables too short for them: 2, 3, 4.

use super::refusal;
use crate::aiger::tables::Given;
use crate::aiger::{with_scratch, Circuit, Counts, Refusal, CIRCUIT, MOST, TABLES};
use crate::random::Random;

/// Numbers that 64-bit arithmetic or a cut to 32 bits would take for small ones.
fn large(random: &mut Random, small: u64) -> u64 {
    let small = small % MOST;
    let any = random.word() | 1 << 20;
    *random.pick(&[
        MOST + 1,
        MOST + 2 + small,
        1 << 32,
        (1 << 32) + small,
        (1 << 62) - 1,
        // Three times this wraps to 2.
        u64::MAX / 3 + 1,
        1 << 63,
        (1 << 63) + small,
        u64::MAX,
        u64::MAX - small,
        any,
    ])
}

/// A count by its place, perhaps a later one too; the first in the order M I L O A B C is named.
pub fn too_large(random: &mut Random, _: &Circuit, given: &mut Given, place: u64) -> Option<Refusal> {
    let mut list = given.counts.list();
    let first = place as usize - 1;
    list[first] = large(random, list[first]);
    if random.once_in(3) {
        let later = random.between(first, list.len() - 1);
        list[later] = large(random, list[later]);
    }
    given.counts = Counts::new(list);
    refusal(2, first + 1)
}

/// Counts whose sum wraps to what it was.
pub fn wrapping(random: &mut Random, _: &Circuit, given: &mut Given, _: u64) -> Option<Refusal> {
    let mut list = given.counts.list();
    let [one, other] = *random.pick(&[[1, 2], [1, 4], [2, 4]]);
    let much = *random.pick(&[1 << 63, u64::MAX - MOST, 1 << 40]);
    list[one] = list[one].wrapping_add(much);
    list[other] = list[other].wrapping_sub(much);
    given.counts = Counts::new(list);
    let first = list.iter().position(|&count| count > MOST)?;
    refusal(2, first + 1)
}

pub fn disagree(random: &mut Random, circuit: &Circuit, given: &mut Given, _: u64) -> Option<Refusal> {
    let counts = circuit.counts();
    let defined = counts.i + counts.l + counts.a;
    let more = 1 + counts.m - defined + random.below(3) as u64;
    let (count, value) = match random.below(5) {
        0 | 1 if defined > 0 => (&mut given.counts.m, random.below(defined as usize) as u64),
        2 => (&mut given.counts.i, counts.i + more),
        3 => (&mut given.counts.l, counts.l + more),
        _ => (&mut given.counts.a, counts.a + more),
    };
    if value > MOST {
        return None;
    }
    *count = value;
    refusal(3, 0)
}

/// The least table that is too short, unless a count is too large already.
fn least(given: &Given) -> Option<Refusal> {
    if given.counts.list().iter().any(|&count| count > MOST) {
        return None;
    }
    let needed = given.counts.words();
    let mut tables = given.tables.each_ref().map(|table| table.len() as u64);
    for (length, written) in tables.iter_mut().zip(given.written.into_iter().flatten()) {
        *length = written.min(*length);
    }
    let lent = with_scratch(tables, given.scratch);
    let mut short: Vec<u64> = (0..TABLES.len())
        .filter(|&k| lent[k] < needed[k])
        .map(|k| TABLES[k])
        .collect();
    short.extend(given.sixth.filter(|sixth| sixth.is_short(&given.counts)).map(|_| 6));
    refusal(4, *short.iter().min()? as usize)
}

/// A length below `needed`, mostly by one.
fn below(random: &mut Random, needed: usize) -> usize {
    match random.below(6) {
        0 => 0,
        1 => random.below(needed),
        _ => needed - 1,
    }
}

/// Cuts a table, given or lent for writing; none where nothing is needed, since then nothing is too short.
fn cut(random: &mut Random, given: &mut Given, table: u64) -> Option<()> {
    let mut shorten = |length: u64| (length > 0).then(|| below(random, length as usize) as u64);
    match table {
        5 => given.scratch = shorten(given.scratch)?,
        6 => {
            let sixth = given.sixth.as_mut()?;
            sixth.length = shorten(sixth.length)?;
        }
        _ => {
            let k = CIRCUIT.iter().position(|&number| number == table)?;
            let length = shorten(given.tables[k].len() as u64)?;
            match &mut given.written {
                Some(written) if random.once_in(2) => written[k] = length.min(written[k]),
                _ => given.tables[k].truncate(length as usize),
            }
        }
    }
    Some(())
}

/// A table, and perhaps another; the least is named.
pub fn short(random: &mut Random, _: &Circuit, given: &mut Given, table: u64) -> Option<Refusal> {
    cut(random, given, table)?;
    if random.once_in(3) {
        let other = *random.pick(&TABLES);
        cut(random, given, other);
    }
    least(given)
}

/// Counts that ask for more than a table holds.
pub fn more(random: &mut Random, _: &Circuit, given: &mut Given, table: u64) -> Option<Refusal> {
    let mut list = given.counts.list();
    // M asks for scratch, and so do all others; resets are asked for by L, but table 2 is told then.
    let k = match table {
        5 => 0,
        8 | 9 => table as usize - 3,
        _ => table as usize,
    };
    let more = random.between(1, 3) as u64;
    let count = list.get_mut(k)?;
    *count = count.saturating_add(more);
    // I + L + A stays within M; O, B and C have no part in that.
    if matches!(k, 1 | 2 | 4) {
        list[0] = list[0].saturating_add(more);
    }
    given.counts = Counts::new(list);
    // Other damage may have made a count too large to be asked for.
    if list.iter().all(|&count| count <= MOST) {
        // Scratch has a lower number than tables 7 to 9.
        if table != 5 && (table > 5 || random.once_in(2)) {
            given.scratch = given.scratch.max(given.counts.words()[4]);
        }
        if let Some(sixth) = given.sixth.as_mut().filter(|_| random.once_in(2)) {
            sixth.length = (sixth.needed)(&given.counts);
        }
    }
    least(given)
}
