//! Given tables: 2, 3, 4, 5, 6, 7, 8, each over the whole circuit; and binary order (15).

use super::{
    apart, literal, meaning, refuse, variable, with_scratch, Circuit, Counts, Lengths, Refusal, CIRCUIT, MOST, TABLES,
};

/// A circuit as a caller hands it in: counts and tables that need not fit together.
#[derive(Clone, Debug)]
pub struct Given {
    pub counts: Counts,
    /// All but scratch.
    pub tables: [Vec<u32>; 7],
    /// The length of table 5.
    pub scratch: u64,
    /// The lengths of the tables lent for writing, if the call writes tables.
    pub written: Option<[u64; 7]>,
    /// Table 6, if the call is lent it.
    pub sixth: Option<Sixth>,
}

/// Table 6: the words that a call needs of it for these counts, and its length.
#[derive(Clone, Copy, Debug)]
pub struct Sixth {
    pub needed: fn(&Counts) -> u64,
    pub length: u64,
}

impl Sixth {
    pub fn is_short(&self, counts: &Counts) -> bool {
        self.length < (self.needed)(counts)
    }
}

impl Given {
    /// A circuit's own tables, with all that is lent exactly as long as needed.
    pub fn exactly(circuit: &Circuit) -> Given {
        let (written, scratch) = apart(circuit.counts().words());
        Given {
            counts: circuit.counts(),
            tables: circuit.tables(),
            scratch,
            written: Some(written),
            sixth: None,
        }
    }
}

/// 4: the least table shorter than needed.
pub fn lengths(needed: &Lengths, lent: &Lengths) -> Result<(), Refusal> {
    least(&short(needed, lent))
}

fn short(needed: &Lengths, lent: &Lengths) -> Vec<u64> {
    let tables = TABLES.into_iter().zip(needed.iter().zip(lent));
    let short = tables.filter(|(_, (needed, lent))| lent < needed);
    short.map(|(table, _)| table).collect()
}

fn least(short: &[u64]) -> Result<(), Refusal> {
    match short.iter().min() {
        Some(&table) => refuse(4, table as usize),
        None => Ok(()),
    }
}

/// 5: whether a literal is in its range.
pub fn in_range(literal: u64, m: u64, defines: bool) -> bool {
    if defines {
        literal.is_multiple_of(2) && literal >= 2 && literal <= 2 * m
    } else {
        literal <= 2 * m + 1
    }
}

/// The circuit of given tables, or the first refusal from 2 to 8.
pub fn check(given: &Given) -> Result<Circuit, Refusal> {
    counts(&given.counts)?;
    let mut lent = given.tables.each_ref().map(|table| table.len() as u64);
    if let Some(written) = &given.written {
        for (lent, &written) in lent.iter_mut().zip(written) {
            *lent = written.min(*lent);
        }
    }
    let mut short = short(&given.counts.words(), &with_scratch(lent, given.scratch));
    let sixth = given.sixth.filter(|sixth| sixth.is_short(&given.counts));
    short.extend(sixth.map(|_| 6));
    least(&short)?;
    let circuit = circuit(given);
    ranges(&circuit)?;
    definitions(&circuit)?;
    meaning::all_defined(&circuit)?;
    meaning::acyclic(&circuit)?;
    Ok(circuit)
}

/// 2 and 3.
fn counts(counts: &Counts) -> Result<(), Refusal> {
    if let Some(large) = counts.list().iter().position(|&count| count > MOST) {
        return refuse(2, large + 1);
    }
    if counts.i + counts.l + counts.a > counts.m {
        return refuse(3, 0);
    }
    Ok(())
}

/// The words that the counts speak of; the tables are known to be long enough.
fn circuit(given: &Given) -> Circuit {
    let (words, _) = apart(given.counts.words());
    let mut tables = given.tables.clone();
    for (table, words) in tables.iter_mut().zip(words) {
        table.truncate(words as usize);
    }
    Circuit::of_tables(given.counts.m, &tables)
}

/// 5: whether a latch may start so.
pub fn resets(reset: u64, current: u32) -> bool {
    reset <= 1 || reset == u64::from(current)
}

/// 5, table by table.
fn ranges(circuit: &Circuit) -> Result<(), Refusal> {
    let fits = |literal: u32, defines| in_range(u64::from(literal), circuit.m, defines);
    let side = |literal: u32| fits(literal, false);
    let sides = |literals: &[u32]| literals.iter().all(|&literal| side(literal));
    let mut latches = circuit.latches.iter();
    let mut started = circuit.latches.iter().zip(&circuit.resets);
    let mut gates = circuit.gates.iter();
    let good = [
        circuit.inputs.iter().all(|&input| fits(input, true)),
        latches.all(|latch| fits(latch[0], true) && side(latch[1])),
        sides(&circuit.outputs),
        gates.all(|gate| fits(gate[0], true) && side(gate[1]) && side(gate[2])),
        started.all(|(latch, &reset)| resets(u64::from(reset), latch[0])),
        sides(&circuit.bads),
        sides(&circuit.constraints),
    ];
    match good.iter().position(|good| !good) {
        Some(table) => refuse(5, CIRCUIT[table] as usize),
        None => Ok(()),
    }
}

/// 6: the table of the first second definition, tables in order.
fn definitions(circuit: &Circuit) -> Result<(), Refusal> {
    let mut defined = vec![false; circuit.m as usize + 1];
    for (literal, table) in circuit.defining() {
        if std::mem::replace(&mut defined[variable(literal)], true) {
            return refuse(6, table);
        }
    }
    Ok(())
}

/// 15, for a circuit that `check` has accepted.
pub fn binary_order(circuit: &Circuit) -> Result<(), Refusal> {
    let all_used = circuit.m == circuit.defining().count() as u64;
    let consecutive = circuit
        .defining()
        .zip(1..)
        .all(|((defining, _), v)| defining == literal(v));
    let ordered = circuit.gates.iter().all(|[lhs, rhs0, rhs1]| lhs > rhs0 && rhs0 >= rhs1);
    if all_used && consecutive && ordered {
        Ok(())
    } else {
        refuse(15, 0)
    }
}
