//! Reading a file in the paper's order: the header by 1, 2, 21, 3, then 4, the file in order, 7, 8.

use super::bytes::{Cursor, Number};
use super::{literal, meaning, refuse, tables, tail, Circuit, Counts, Form, Lengths, Refusal, Version, MOST, TABLES};
use std::ops::RangeInclusive;

pub struct Header {
    pub form: Form,
    pub counts: Counts,
    /// Where the first line after the header starts.
    pub end: usize,
}

impl Header {
    /// The words that the tables need to read the file.
    pub fn words(&self) -> Lengths {
        self.counts.words_to_read(self.form)
    }
}

impl Version {
    /// How many counts a header has: M I L O A, in 1.9 perhaps B C J F.
    fn counts(self) -> RangeInclusive<usize> {
        match self {
            Version::V2007 => 5..=5,
            Version::V19 => 5..=9,
        }
    }

    /// How many numbers a latch's line has after the current state's: next, in 1.9 perhaps a reset.
    fn latch(self) -> RangeInclusive<usize> {
        match self {
            Version::V2007 => 1..=1,
            Version::V19 => 1..=2,
        }
    }
}

/// The header alone, by 1 to its new line, then 2, then 21, then 3.
pub fn header(file: &[u8], version: Version) -> Result<Header, Refusal> {
    let mut cursor = Cursor::new(file, 0);
    cursor.one_of(b"a")?;
    let form = match cursor.one_of(b"ai")? {
        b'a' => Form::Text,
        _ => Form::Binary,
    };
    cursor.one_of(b"g")?;
    cursor.one_of(b" ")?;
    let numbers = cursor.line(version.counts())?;
    if let Some(large) = numbers.iter().find(|number| number.value > MOST) {
        return refuse(2, large.place);
    }
    if let Some(some) = numbers.iter().skip(7).find(|number| number.value > 0) {
        return refuse(21, some.place);
    }
    let value = |k: usize| numbers.get(k).map_or(0, |number| number.value);
    let counts = Counts::new([0, 1, 2, 3, 4, 5, 6].map(value));
    let defined = counts.i + counts.l + counts.a;
    if defined > counts.m || (form == Form::Binary && defined != counts.m) {
        return refuse(3, 0);
    }
    Ok(Header {
        form,
        counts,
        end: cursor.at,
    })
}

/// The desk program's question.
pub fn words(file: &[u8], table: u64) -> u64 {
    match (
        header(file, Version::V19),
        TABLES.iter().position(|&number| number == table),
    ) {
        (Ok(header), Some(k)) => header.words()[k],
        _ => u64::MAX,
    }
}

/// The circuit and the offset of the tail.
pub fn read(file: &[u8], lent: &Lengths, version: Version) -> Result<(Circuit, usize), Refusal> {
    let header = header(file, version)?;
    tables::lengths(&header.words(), lent)?;
    let mut lines = Lines {
        cursor: Cursor::new(file, header.end),
        version,
        m: header.counts.m,
        defined: vec![false; header.counts.m as usize + 1],
    };
    let circuit = match header.form {
        Form::Text => text(&mut lines, &header.counts)?,
        Form::Binary => binary(&mut lines, &header.counts)?,
    };
    let start = lines.cursor.at;
    tail::check(&file[start..], &header.counts, version).map_err(|refusal| Refusal {
        place: refusal.place + start as u64,
        ..refusal
    })?;
    meaning::all_defined(&circuit)?;
    meaning::acyclic(&circuit)?;
    Ok((circuit, start))
}

/// Reads lines and remembers which variables those of a text file have defined.
struct Lines<'f> {
    cursor: Cursor<'f>,
    version: Version,
    m: u64,
    defined: Vec<bool>,
}

impl Lines<'_> {
    /// Lines of one literal that is used.
    fn literals(&mut self, count: u64) -> Result<Vec<u32>, Refusal> {
        let mut literal = || {
            let numbers = self.cursor.line(1..=1)?;
            self.used(&numbers[0])
        };
        (0..count).map(|_| literal()).collect()
    }

    fn used(&self, number: &Number) -> Result<u32, Refusal> {
        fitting(number, tables::in_range(number.value, self.m, false))
    }

    fn defining(&self, number: &Number) -> Result<u32, Refusal> {
        fitting(number, tables::in_range(number.value, self.m, true))
    }

    /// 6.
    fn define(&mut self, number: &Number) -> Result<(), Refusal> {
        if std::mem::replace(&mut self.defined[number.value as usize / 2], true) {
            return refuse(6, number.place);
        }
        Ok(())
    }

    /// The line of an input or of a gate: by 1 to its end, then each number by 5, then the first by 6.
    fn entry<const N: usize>(&mut self) -> Result<[u32; N], Refusal> {
        let numbers = self.cursor.line(N..=N)?;
        let mut literals = [self.defining(&numbers[0])?; N];
        for (literal, number) in literals.iter_mut().zip(&numbers).skip(1) {
            *literal = self.used(number)?;
        }
        self.define(&numbers[0])?;
        Ok(literals)
    }

    /// A latch's line of a text file: current, next, perhaps a reset.
    fn latch(&mut self) -> Result<([u32; 2], u32), Refusal> {
        let fields = self.version.latch();
        let numbers = self.cursor.line(fields.start() + 1..=fields.end() + 1)?;
        let current = self.defining(&numbers[0])?;
        let next = self.used(&numbers[1])?;
        let reset = reset(numbers.get(2), current)?;
        self.define(&numbers[0])?;
        Ok(([current, next], reset))
    }

    /// A latch's line of a binary file, which leaves the current state out.
    fn latch_of(&mut self, current: u32) -> Result<([u32; 2], u32), Refusal> {
        let numbers = self.cursor.line(self.version.latch())?;
        let next = self.used(&numbers[0])?;
        Ok(([current, next], reset(numbers.get(1), current)?))
    }
}

fn fitting(number: &Number, fits: bool) -> Result<u32, Refusal> {
    if fits {
        Ok(number.value as u32)
    } else {
        refuse(5, number.place)
    }
}

/// What a latch starts with: 0 if its line doesn't say.
fn reset(number: Option<&Number>, current: u32) -> Result<u32, Refusal> {
    number.map_or(Ok(0), |number| fitting(number, tables::resets(number.value, current)))
}

fn text(lines: &mut Lines, counts: &Counts) -> Result<Circuit, Refusal> {
    let inputs: Result<Vec<[u32; 1]>, Refusal> = (0..counts.i).map(|_| lines.entry()).collect();
    let inputs = inputs?.concat();
    let latches: Result<Vec<_>, Refusal> = (0..counts.l).map(|_| lines.latch()).collect();
    let (latches, resets) = latches?.into_iter().unzip();
    Ok(Circuit {
        m: counts.m,
        inputs,
        latches,
        resets,
        outputs: lines.literals(counts.o)?,
        bads: lines.literals(counts.b)?,
        constraints: lines.literals(counts.c)?,
        gates: (0..counts.a).map(|_| lines.entry()).collect::<Result<_, _>>()?,
    })
}

fn binary(lines: &mut Lines, counts: &Counts) -> Result<Circuit, Refusal> {
    let mut defining = (counts.i as usize + 1..).map(literal);
    let currents = defining.by_ref().take(counts.l as usize);
    let latches: Result<Vec<_>, Refusal> = currents.map(|current| lines.latch_of(current)).collect();
    let (latches, resets) = latches?.into_iter().unzip();
    Ok(Circuit {
        m: counts.m,
        inputs: (1..=counts.i as usize).map(literal).collect(),
        latches,
        resets,
        outputs: lines.literals(counts.o)?,
        bads: lines.literals(counts.b)?,
        constraints: lines.literals(counts.c)?,
        gates: gates(&mut lines.cursor, defining.take(counts.a as usize))?,
    })
}

fn gates(cursor: &mut Cursor, defining: impl Iterator<Item = u32>) -> Result<Vec<[u32; 3]>, Refusal> {
    let gate = |lhs| {
        let rhs0 = below(cursor, lhs, true)?;
        let rhs1 = below(cursor, rhs0, false)?;
        Ok([lhs, rhs0, rhs1])
    };
    defining.map(gate).collect()
}

/// What a difference leaves of `from`; only the first of a gate must not be zero.
fn below(cursor: &mut Cursor, from: u32, first: bool) -> Result<u32, Refusal> {
    let difference = cursor.difference()?;
    if difference.value > u64::from(from) || (first && difference.value == 0) {
        return refuse(9, difference.place);
    }
    Ok(from - difference.value as u32)
}
