//! A plain second implementation of the paper, on owned data, for comparison with the library.

pub mod bytes;
pub mod calls;
pub mod cards;
pub mod convert;
pub mod explain;
pub mod fillings;
pub mod meaning;
pub mod plain;
pub mod programs;
pub mod read;
pub mod reduce;
pub mod report;
pub mod rewire;
pub mod rows;
pub mod step;
pub mod tables;
pub mod tail;
pub mod unused;
pub mod write;

/// The largest count.
pub const MOST: u64 = 1_048_575;

/// A refusal of the paper: its number and its place.
#[derive(Clone, Copy, Debug, PartialEq, Eq)]
pub struct Refusal {
    pub number: u64,
    pub place: u64,
}

impl Refusal {
    /// What a program writes of it.
    pub fn line(&self) -> String {
        format!("refused {} at {}\n", self.number, self.place)
    }
}

/// Shortens the many places where a check fails.
pub fn refuse<T>(number: u64, place: usize) -> Result<T, Refusal> {
    Err(Refusal {
        number,
        place: place as u64,
    })
}

#[derive(Clone, Copy, Debug, PartialEq, Eq)]
pub enum Form {
    Text,
    Binary,
}

/// The format of the report of 2007, or AIGER 1.9.
#[derive(Clone, Copy, Debug, PartialEq, Eq)]
pub enum Version {
    V2007,
    V19,
}

impl Version {
    pub const ALL: [Version; 2] = [Version::V2007, Version::V19];
}

/// The numbers of all tables.
pub const TABLES: [u64; 8] = [1, 2, 3, 4, 5, 7, 8, 9];

/// Of those, the ones that hold a circuit, in the order in which a call is lent them.
pub const CIRCUIT: [u64; 7] = [1, 2, 3, 4, 7, 8, 9];

/// The lengths of all tables, by number.
pub type Lengths = [u64; 8];

/// What belongs to each table, by number, of what belongs to a circuit's and to scratch.
pub fn with_scratch<T>([one, two, three, four, seven, eight, nine]: [T; 7], scratch: T) -> [T; 8] {
    [one, two, three, four, scratch, seven, eight, nine]
}

/// The other way round.
pub fn apart<T>([one, two, three, four, scratch, seven, eight, nine]: [T; 8]) -> ([T; 7], T) {
    ([one, two, three, four, seven, eight, nine], scratch)
}

#[derive(Clone, Copy, Debug, Default, PartialEq, Eq)]
pub struct Counts {
    pub m: u64,
    pub i: u64,
    pub l: u64,
    pub o: u64,
    pub a: u64,
    pub b: u64,
    pub c: u64,
}

impl Counts {
    pub fn new([m, i, l, o, a, b, c]: [u64; 7]) -> Counts {
        Counts { m, i, l, o, a, b, c }
    }

    /// In the order of the header.
    pub fn list(&self) -> [u64; 7] {
        [self.m, self.i, self.l, self.o, self.a, self.b, self.c]
    }

    /// The words that the tables need, but to read a binary file.
    pub fn words(&self) -> Lengths {
        self.words_with(4 * (self.m + 1) + self.o + self.b + self.c)
    }

    /// The words that the tables need to read a file.
    pub fn words_to_read(&self, form: Form) -> Lengths {
        match form {
            Form::Text => self.words(),
            Form::Binary => self.words_with(self.i + self.l + self.o + self.b + self.c),
        }
    }

    fn words_with(&self, scratch: u64) -> Lengths {
        let circuit = [self.i, 2 * self.l, self.o, 3 * self.a, self.l, self.b, self.c];
        with_scratch(circuit, scratch)
    }
}

#[derive(Clone, Debug, Default, PartialEq, Eq)]
pub struct Circuit {
    pub m: u64,
    pub inputs: Vec<u32>,
    /// Current, then next.
    pub latches: Vec<[u32; 2]>,
    pub outputs: Vec<u32>,
    /// lhs, rhs0, rhs1.
    pub gates: Vec<[u32; 3]>,
    /// For each latch 0, 1 or its own literal, which stands for x.
    pub resets: Vec<u32>,
    pub bads: Vec<u32>,
    pub constraints: Vec<u32>,
}

impl Circuit {
    pub fn counts(&self) -> Counts {
        Counts {
            m: self.m,
            i: self.inputs.len() as u64,
            l: self.latches.len() as u64,
            o: self.outputs.len() as u64,
            a: self.gates.len() as u64,
            b: self.bads.len() as u64,
            c: self.constraints.len() as u64,
        }
    }

    /// Its tables without spare words.
    pub fn tables(&self) -> [Vec<u32>; 7] {
        [
            self.inputs.clone(),
            self.latches.concat(),
            self.outputs.clone(),
            self.gates.concat(),
            self.resets.clone(),
            self.bads.clone(),
            self.constraints.clone(),
        ]
    }

    /// What tables hold that are exactly as long as they need be.
    pub fn of_tables(m: u64, tables: &[Vec<u32>; 7]) -> Circuit {
        let [inputs, latches, outputs, gates, resets, bads, constraints] = tables.clone();
        Circuit {
            m,
            inputs,
            latches: latches.as_chunks().0.to_vec(),
            outputs,
            gates: gates.as_chunks().0.to_vec(),
            resets,
            bads,
            constraints,
        }
    }

    /// The same circuit with other literals; gates are given apart.
    pub fn renamed(&self, name: impl Fn(u32) -> u32 + Copy, m: u64, gates: Vec<[u32; 3]>) -> Circuit {
        let all = |literals: &[u32]| literals.iter().map(|&literal| name(literal)).collect();
        Circuit {
            m,
            inputs: all(&self.inputs),
            latches: self.latches.iter().map(|latch| latch.map(name)).collect(),
            outputs: all(&self.outputs),
            gates,
            resets: all(&self.resets),
            bads: all(&self.bads),
            constraints: all(&self.constraints),
        }
    }

    /// Outputs, bad states and constraints.
    pub fn asked(&self) -> impl Iterator<Item = u32> + '_ {
        self.outputs.iter().chain(&self.bads).chain(&self.constraints).copied()
    }

    /// The literals that are used: next states, outputs, bad states, constraints, right sides.
    pub fn used(&self) -> impl Iterator<Item = u32> + '_ {
        let next = self.latches.iter().map(|latch| latch[1]);
        let sides = self.gates.iter().flat_map(|gate| [gate[1], gate[2]]);
        next.chain(self.asked()).chain(sides)
    }

    /// The literals that define, each with the table it stands in, tables in order.
    pub fn defining(&self) -> impl Iterator<Item = (u32, usize)> + '_ {
        let inputs = self.inputs.iter().map(|&literal| (literal, 1));
        let latches = self.latches.iter().map(|latch| (latch[0], 2));
        let gates = self.gates.iter().map(|gate| (gate[0], 4));
        inputs.chain(latches).chain(gates)
    }
}

/// The variable of a literal, fit to index with.
pub fn variable(literal: u32) -> usize {
    (literal / 2) as usize
}

/// The unnegated literal of a variable.
pub fn literal(variable: usize) -> u32 {
    2 * variable as u32
}

pub fn negated(literal: u32) -> bool {
    literal % 2 == 1
}

pub fn negation(literal: u32) -> u32 {
    literal ^ 1
}
