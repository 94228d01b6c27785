//! Every byte as a value of a state, an input and a list, and where a line of a file may go on or end.

use crate::aiger::{read, Circuit, Version};
use crate::compare::compare as compare_file;
use crate::compare::tables::compare;
use crate::generate::given;
use crate::library::{Call, Lent, Library};
use crate::memory::Memory;
use crate::tally::Tally;

const JUNK: u64 = 1 << 33 | 1;

/// A latch that takes the input, and the And of both as the output.
fn circuit() -> Circuit {
    Circuit {
        m: 3,
        inputs: vec![2],
        latches: vec![[4, 2]],
        outputs: vec![6],
        gates: vec![[6, 4, 2]],
        resets: vec![1],
        bads: vec![4],
        constraints: vec![1],
    }
}

fn lent(call: Call, bytes: &[&[u8]]) -> Lent {
    let mut lent = given::lend(call, &given::exactly(call, &circuit()), JUNK);
    lent.bytes = bytes.iter().map(|vector| Memory::around(vector, JUNK)).collect();
    lent
}

pub fn run(tally: &mut Tally, library: &dyn Library) {
    for byte in 0..=u8::MAX {
        tally.check(&format!("byte {byte} as a value"), values(library, byte));
        tally.check(&format!("byte {byte} in a file"), files(library, byte));
    }
}

fn values(library: &dyn Library, byte: u8) -> Result<(), String> {
    for other in *b"01x" {
        for call in [Call::Step, Call::StepPlain] {
            compare(library, call, &lent(call, &[&[byte], &[other], b"?"]))?;
            compare(library, call, &lent(call, &[&[other], &[byte], b"?"]))?;
        }
        for (call, numbers) in [
            (Call::Witness, vec![3, 5]),
            (Call::Witness3, vec![3]),
            (Call::Report, vec![3]),
            (Call::ReportRows, vec![3]),
        ] {
            let mut question = lent(call, &[&[b'1', other, byte]]);
            question.numbers = numbers;
            compare(library, call, &question)?;
        }
        for vectors in [[byte, other], [other, byte]] {
            let mut explain = lent(Call::Explain, &[&vectors[..1], &vectors[1..], b"??"]);
            explain.numbers = vec![0];
            compare(library, Call::Explain, &explain)?;
        }
        for values in [
            [b'0', byte, other, other],
            [b'0', other, byte, other],
            [byte, b'1', other, other],
            [b'0', b'1', other, byte],
        ] {
            let mut rewire = lent(Call::Rewire, &[&values]);
            rewire.numbers = vec![0, 3, 5];
            compare(library, Call::Rewire, &rewire)?;
        }
        let mut rows = lent(Call::Rows, &[b"??", &[other, byte], b"??"]);
        rows.numbers = vec![2];
        compare(library, Call::Rows, &rows)?;
    }
    Ok(())
}

/// Files with every byte in turn for "?".
const FILES: &[&str] = &[
    "aag 0 0 0 0 0?\n",
    "aag 0 0 0 0 0?0\n",
    "aag 0 0 0 0 0 0?0 0 0\n",
    "aag 0 0 0 0 0 0 0 0 ?\n",
    "aag 1 0 1 0 0\n2 3?1\n",
    "aag 1 0 1 0 0\n2 3 ?\n",
    "aig 1 0 1 0 0\n3?2\n",
    "aag 1 0 1 0 0\n2 3 1?\n",
    "aag 0 0 0 0 0 1 1\n1\n1\n?0 p\n",
    "aag 0 0 0 0 0 1 1\n1\n1\nc? p\n",
    "aag 0 0 0 0 0 1 1\n1\n1\nc0?p\n",
    "aag 0 0 0 0 0\nc?p\n",
    "aag 0 0 0 0 0\nc\n?",
];

fn files(library: &dyn Library, byte: u8) -> Result<(), String> {
    for file in FILES {
        let put = |other: u8| if other == b'?' { byte } else { other };
        let file: Vec<u8> = file.bytes().map(put).collect();
        let lengths = [9; 8];
        let answers = Version::ALL.map(|version| read::read(&file, &lengths, version));
        compare_file(library, &file, &lengths, JUNK, &answers)?;
    }
    Ok(())
}
