//! Witness questions worked by hand.

use crate::aiger::fillings::{NO, UNDECIDED, YES};
use crate::aiger::tables::Given;
use crate::aiger::{calls, read, refuse, Refusal, Version};
use crate::compare::tables::compare;
use crate::ensure;
use crate::generate::given;
use crate::library::{Call, Library};
use crate::memory::Memory;
use crate::tally::Tally;

type Verdict = Result<[u64; 2], Refusal>;

/// An input and its negation: whatever it is, one of them is 1.
const OPPOSED: &str = "aag 1 1 0 2 0\n2\n2\n3\n";

/// The input alone.
const BUFFER: &str = "aag 1 1 0 1 0\n2\n2\n";

/// 0 only if the latch, which starts as x, is 1 and the input 0.
const IMPLIED: &str = "aag 3 1 1 1 1\n2\n4 4 4\n7\n6 4 3\n";

/// 1 where the input, a constraint, is.
const CONSTRAINED: &str = "aag 1 1 0 1 0 0 1\n2\n1\n2\n";

/// A file, a number of vectors, their bytes, an allowance; what is said in three values, and by fillings.
const ASKED: &[(&str, u64, &str, u64, bool, Verdict)] = &[
    (OPPOSED, 1, "x", 2, false, Ok([YES, 2])),
    (OPPOSED, 1, "x", u64::MAX, false, Ok([YES, 2])),
    (OPPOSED, 1, "x", 1, false, Ok([UNDECIDED, 1])),
    (OPPOSED, 1, "x", 0, false, Ok([UNDECIDED, 0])),
    (OPPOSED, 2, "xx", 4, false, Ok([YES, 4])),
    (OPPOSED, 0, "", 1, false, Ok([NO, 1])),
    (OPPOSED, 0, "", 0, false, Ok([UNDECIDED, 0])),
    (BUFFER, 1, "x", 2, false, Ok([NO, 1])),
    (BUFFER, 2, "x1", 2, true, Ok([YES, 2])),
    (BUFFER, 1, "1", 1, true, Ok([YES, 1])),
    // 00 fails; of 1x and x1 both do not.
    (BUFFER, 2, "xx", 9, false, Ok([NO, 1])),
    // The latch's x is number 0: 0 at both shows a 1, then 1 at the latch and 0 at the input does not.
    (IMPLIED, 1, "x", 9, false, Ok([NO, 2])),
    (IMPLIED, 1, "x", 1, false, Ok([UNDECIDED, 1])),
    (IMPLIED, 1, "1", 9, true, Ok([YES, 2])),
    (IMPLIED, 2, "x1", 9, true, Ok([YES, 4])),
    (IMPLIED, 0, "", 9, false, Ok([NO, 1])),
    (CONSTRAINED, 1, "x", 9, false, Ok([NO, 1])),
    (CONSTRAINED, 2, "1x", 9, true, Ok([YES, 2])),
    // Once a constraint was 0, no later 1 counts.
    (CONSTRAINED, 2, "x1", 9, false, Ok([NO, 1])),
    (CONSTRAINED, 2, "01", 9, false, Ok([NO, 1])),
    (BUFFER, 20, "xxxxxxxxxxxxxxxxxxxx", 9, false, Ok([NO, 1])),
    (
        BUFFER,
        21,
        "xxxxxxxxxxxxxxxxxxxxx",
        0,
        false,
        Err(Refusal { number: 20, place: 21 }),
    ),
    (
        BUFFER,
        22,
        "1xxxxxxxxxxxxxxxxxxxxx",
        1,
        true,
        Err(Refusal { number: 20, place: 21 }),
    ),
    // The first state counts too.
    (
        IMPLIED,
        20,
        "xxxxxxxxxxxxxxxxxxxx",
        9,
        false,
        Err(Refusal { number: 20, place: 21 }),
    ),
];

pub fn run(tally: &mut Tally, library: Option<&dyn Library>) {
    for (file, number, list, allowance, three, verdict) in ASKED {
        let name = format!("{file:?} with {list:?}, {allowance} allowed");
        let asked = asked(library, file, [*number, *allowance], list, *three, *verdict);
        tally.check(&name, asked);
    }
}

fn asked(
    library: Option<&dyn Library>,
    file: &str,
    [number, allowance]: [u64; 2],
    list: &str,
    three: bool,
    verdict: Verdict,
) -> Result<(), String> {
    let read = read::read(file.as_bytes(), &[u64::MAX; 8], Version::V19);
    let (circuit, _) = read.map_err(|refusal| refusal.line())?;
    let given = Given::exactly(&circuit);
    let old = calls::witness3(&given, number, list.as_bytes());
    ensure!(old == Ok(three), "in three values: {old:?}");
    let new = calls::witness(&given, number, list.as_bytes(), allowance);
    let new = new.map(|verdict| [verdict.says, verdict.tried]);
    ensure!(new == verdict, "expected {verdict:?}, given {new:?}");
    let one = calls::witness(&given, number + 1, list.as_bytes(), allowance);
    ensure!(one.is_err() && one == refuse(12, 2), "a list that ends early: {one:?}");
    let Some(library) = library else {
        return Ok(());
    };
    for (call, numbers) in [(Call::Witness, vec![number, allowance]), (Call::Witness3, vec![number])] {
        let mut lent = given::lend(call, &given::exactly(call, &circuit), 1 << 33 | 1);
        lent.numbers = numbers;
        lent.bytes = vec![Memory::around(list.as_bytes(), 1 << 33 | 1)];
        compare(library, call, &lent)?;
    }
    Ok(())
}
