//! Words of the tables that are wrong: 5, 6, 7, 8.

use super::{refusal, Damage};
use crate::aiger::tables::Given;
use crate::aiger::{literal, negation, variable, Circuit, Refusal, CIRCUIT, MOST};
use crate::generate::damage::numbers::closed;
use crate::naive;
use crate::random::Random;
use std::collections::HashSet;

pub const SECOND: &[Damage] = &[second, second, second_and_undefined];

/// A word of a table: the table in the order in which they are lent, and the position in it.
type Word = (usize, usize);

/// Words of an entry of each table that defines.
const ENTRY: [usize; 4] = [1, 2, 1, 3];

const LATCHES: usize = 1;
const RESETS: usize = 4;

fn defines((table, k): Word) -> bool {
    matches!(table, 0 | 1 | 3) && k % ENTRY[table] == 0
}

fn number((table, _): Word) -> usize {
    CIRCUIT[table] as usize
}

/// All words, tables in order.
fn all(given: &Given) -> impl Iterator<Item = Word> + '_ {
    let tables = given.tables.iter().enumerate();
    tables.flat_map(|(table, words)| (0..words.len()).map(move |k| (table, k)))
}

fn defining(given: &Given) -> Vec<Word> {
    all(given).filter(|&word| defines(word)).collect()
}

fn using(given: &Given) -> Vec<Word> {
    all(given).filter(|&word| !defines(word) && word.0 != RESETS).collect()
}

fn set(given: &mut Given, (table, k): Word, word: u32) {
    given.tables[table][k] = word;
}

/// A word of a table, perhaps one of another too; the least table is named.
pub fn out_of_range(random: &mut Random, circuit: &Circuit, given: &mut Given, table: u64) -> Option<Refusal> {
    let tables: Vec<usize> = (0..CIRCUIT.len()).filter(|&k| !given.tables[k].is_empty()).collect();
    let first = tables.iter().copied().find(|&k| CIRCUIT[k] == table)?;
    spoil(random, circuit, given, first);
    let mut least = first;
    if random.once_in(3) {
        let other = *random.pick(&tables);
        spoil(random, circuit, given, other);
        least = least.min(other);
    }
    refusal(5, CIRCUIT[least] as usize)
}

/// Puts some word of a table out of its range.
fn spoil(random: &mut Random, circuit: &Circuit, given: &mut Given, table: usize) {
    let place = (table, random.below(given.tables[table].len()));
    let most = 2 * circuit.m as u32 + 1;
    let above = most + 1 + random.below(9) as u32;
    let large = *random.pick(&[most + 1, most + 2, above, 1 << 31, u32::MAX]);
    let odd = 2 * random.below(circuit.m as usize + 1) as u32 + 1;
    let none = *random.pick(&[0, 1, odd, odd, most, large]);
    let word = match place {
        (RESETS, k) => no_reset(random, circuit.m, given, k, large),
        _ if defines(place) => none,
        _ => large,
    };
    set(given, place, word);
}

/// What the k-th latch can't start with: another's literal, its negation, any other.
fn no_reset(random: &mut Random, m: u64, given: &Given, k: usize, large: u32) -> u32 {
    let latches = given.tables[LATCHES].as_chunks::<2>().0;
    let [own, _] = latches[k];
    let [other, _] = *random.pick(latches);
    let near = 2 + random.below(2 * m as usize) as u32;
    match *random.pick(&[other, other, own ^ 1, near, large, 2, 3]) {
        reset if reset == own => negation(own),
        reset => reset,
    }
}

/// 5 over all tables comes before 6.
pub fn out_of_range_and_second(
    random: &mut Random,
    circuit: &Circuit,
    given: &mut Given,
    table: u64,
) -> Option<Refusal> {
    let other = *random.pick(&[1, 2, 4]);
    second(random, circuit, given, other);
    out_of_range(random, circuit, given, table)
}

/// A variable defined a second time in a table.
pub fn second(random: &mut Random, _: &Circuit, given: &mut Given, table: u64) -> Option<Refusal> {
    let places = defining(given);
    let seconds: Vec<usize> = (1..places.len())
        .filter(|&k| number(places[k]) == table as usize)
        .collect();
    if seconds.is_empty() {
        return None;
    }
    let second = *random.pick(&seconds);
    let (first, k) = places[random.below(second)];
    let word = given.tables[first][k];
    set(given, places[second], word);
    // A latch that starts as x stays one, lest 5 be first.
    if let (LATCHES, at) = places[second] {
        let reset = &mut given.tables[RESETS][at / 2];
        *reset = if *reset > 1 { word } else { *reset };
    }
    refusal(6, number(places[second]))
}

/// 6 comes before 7.
fn second_and_undefined(random: &mut Random, circuit: &Circuit, given: &mut Given, table: u64) -> Option<Refusal> {
    undefined(random, circuit, given, 0);
    second(random, circuit, given, table)
}

/// One to three uses of variables without a definition; the least is named.
pub fn undefined(random: &mut Random, circuit: &Circuit, given: &mut Given, _: u64) -> Option<Refusal> {
    let places = using(given);
    undefined_at(random, circuit, given, places)
}

/// The same in bad states and constraints alone.
pub fn undefined_bad(random: &mut Random, circuit: &Circuit, given: &mut Given, _: u64) -> Option<Refusal> {
    let places = all(given).filter(|&(table, _)| table > RESETS).collect();
    undefined_at(random, circuit, given, places)
}

fn undefined_at(random: &mut Random, circuit: &Circuit, given: &mut Given, mut places: Vec<Word>) -> Option<Refusal> {
    if circuit.m + 3 > MOST {
        return None;
    }
    let more = random.between(1, 3) as u64;
    given.counts.m = circuit.m + more;
    given.scratch += 4 * more;
    let defined: HashSet<usize> = circuit.defining().map(|(literal, _)| variable(literal)).collect();
    let all = (1..=given.counts.m as usize).rev();
    let free: Vec<usize> = all.filter(|v| !defined.contains(v)).take(50).collect();
    random.shuffle(&mut places);
    let mut least = None;
    for place in places.into_iter().take(random.between(1, 3)) {
        let v = *random.pick(&free);
        least = Some(least.unwrap_or(v).min(v));
        set(given, place, literal(v) + random.below(2) as u32);
    }
    refusal(7, least?)
}

/// 7 comes before 8.
pub fn undefined_and_cycle(random: &mut Random, circuit: &Circuit, given: &mut Given, _: u64) -> Option<Refusal> {
    cycle(random, circuit, given, 0)?;
    undefined(random, circuit, given, 0)
}

/// A gate is made to depend on itself.
pub fn cycle(random: &mut Random, circuit: &Circuit, given: &mut Given, _: u64) -> Option<Refusal> {
    let a = circuit.gates.len();
    // The closure is slow, and many gates show nothing more.
    if a == 0 || a > 300 {
        return None;
    }
    let (gate, side, cyclic) = closed(random, circuit);
    set(given, (3, 3 * gate + side), cyclic.gates[gate][side]);
    refusal(8, naive::first_on_cycle(&cyclic)?)
}

/// One to three words become others of about the right size; what that is, only a check can tell.
pub fn edit(random: &mut Random, circuit: &Circuit, given: &mut Given) {
    for _ in 0..random.between(1, 3) {
        let table = random.below(CIRCUIT.len());
        let words = &mut given.tables[table];
        if words.is_empty() {
            continue;
        }
        let at = random.below(words.len());
        match random.below(3) {
            0 => words.swap(at, 0),
            1 => words[at] ^= 1,
            _ => words[at] = random.below(2 * circuit.m as usize + 4) as u32,
        }
    }
}
