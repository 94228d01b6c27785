//! The symbol and comment part: 1 and 10.

use super::{harm, numbers, too_large, Damage, Harm, Spot};
use crate::aiger::Circuit;
use crate::generate::draft::{lists, symbol, Draft};
use crate::random::Random;

pub const SYMBOLS: &[Damage] = &[too_high, second, too_high, second, symbol_and_meaning];

pub const MARKS: &[Damage] = &[malformed, malformed, unterminated, comment, other, comment_and_meaning];

fn insert(random: &mut Random, draft: &mut Draft, line: &[u8]) -> usize {
    let k = random.below(draft.symbols.len() + 1);
    draft.symbols.insert(k, line.to_vec());
    k
}

fn too_high(random: &mut Random, circuit: &Circuit, draft: &mut Draft) -> Option<Harm> {
    let (kind, count) = *random.pick(&lists(circuit));
    let position = match count {
        0 if random.once_in(2) => b"0".to_vec(),
        0 => too_large(random, 0, 0),
        _ if random.once_in(3) => count.to_string().into_bytes(),
        _ => too_large(random, count as u64 - 1, 0),
    };
    let line = symbol(kind, String::from_utf8(position).ok()?, b"p");
    let k = insert(random, draft, &line);
    harm(10, Spot::Symbol(k, 0))
}

fn second(random: &mut Random, circuit: &Circuit, draft: &mut Draft) -> Option<Harm> {
    let (kind, count) = *random.pick(&lists(circuit));
    if count == 0 {
        return None;
    }
    let position = random.below(count);
    // What stands there already would be a third.
    let entry = symbol(kind, position, b"");
    draft.symbols.retain(|line| !line.starts_with(&entry));
    let name = *random.pick(&[b"p" as &[u8], b"", b"q r"]);
    let first = insert(random, draft, &symbol(kind, position, b"p"));
    let second = random.between(first + 1, draft.symbols.len());
    draft.symbols.insert(second, symbol(kind, position, name));
    harm(10, Spot::Symbol(second, 0))
}

/// A line that is no symbol, and the first byte of it that can't stand there.
fn malformed(random: &mut Random, _: &Circuit, draft: &mut Draft) -> Option<Harm> {
    let (line, place): (&[u8], usize) = *random.pick(&[
        (b"" as &[u8], 0),
        (b"x0 n", 0),
        (b"j0 n", 0),
        (b"f0 n", 0),
        (b"B0 n", 0),
        (b"I0 n", 0),
        (b"b", 1),
        (b"b n", 1),
        (b"b00 n", 2),
        (b"c00 n", 2),
        (b"c0", 2),
        (b"c0\tn", 2),
        (b"c1n m", 2),
        (b"c7 n\r", 4),
        (b"b0 \x7f", 3),
        (b" i0 n", 0),
        (b"0 n", 0),
        (b"i", 1),
        (b"i n", 1),
        (b"i 0 n", 1),
        (b"o-1 n", 1),
        (b"l+0 n", 1),
        (b"i00 n", 2),
        (b"l01 n", 2),
        (b"o0", 2),
        (b"i0\tn", 2),
        (b"i0n m", 2),
        (b"l0 \x7f", 3),
        (b"i0 a\tb", 4),
        (b"o0 n\r", 4),
        (b"i0 \xc3\xa4", 3),
        (b"o999999999 n\0", 12),
        (b"i0 n\x1f", 4),
    ]);
    let k = insert(random, draft, line);
    harm(1, Spot::Symbol(k, place))
}

/// The file ends within a symbol line, even one whose position is too high.
fn unterminated(random: &mut Random, _: &Circuit, draft: &mut Draft) -> Option<Harm> {
    let end = *random.pick(&[
        b"i" as &[u8],
        b"l0",
        b"o12",
        b"i0 ",
        b"o0 name",
        b"l4 a b",
        b"b",
        b"b0 n",
        b"c0",
        b"c0 ",
        b"c9 name",
        b"c99999999999999999999 n",
        b"i99999999999999999999",
    ]);
    draft.comment = end.to_vec();
    harm(1, Spot::End)
}

fn comment(random: &mut Random, _: &Circuit, draft: &mut Draft) -> Option<Harm> {
    let (comment, spot): (&[u8], Spot) = *random.pick(&[
        (b"c" as &[u8], Spot::End),
        (b"c\nno new line", Spot::End),
        (b"c\n\n\n\0", Spot::End),
        (b"c\nends\r", Spot::End),
        (b"c\r\n", Spot::Comment(1)),
        (b"c \n", Spot::Comment(1)),
        (b"cc\n", Spot::Comment(1)),
        (b"c 0 n\n", Spot::Comment(1)),
        (b"c-1 n\n", Spot::Comment(1)),
        (b"c:\n", Spot::Comment(1)),
        (b"c\t\n", Spot::Comment(1)),
        (b"comment\n", Spot::Comment(1)),
    ]);
    draft.comment = comment.to_vec();
    harm(1, spot)
}

/// Something else than a symbol, a comment or the end.
fn other(random: &mut Random, _: &Circuit, draft: &mut Draft) -> Option<Harm> {
    draft.comment = vec![*random.pick(b"\n \t\r\0ajfBC2\x80\xff"), b'\n'];
    harm(1, Spot::Comment(0))
}

/// What only the whole file shows, 7 or 8, comes after the tail.
fn meaning(random: &mut Random, circuit: &Circuit, draft: &mut Draft) -> Option<Harm> {
    numbers::undefined(random, circuit, draft).or_else(|| numbers::cycle(random, circuit, draft))
}

fn symbol_and_meaning(random: &mut Random, circuit: &Circuit, draft: &mut Draft) -> Option<Harm> {
    meaning(random, circuit, draft)?;
    too_high(random, circuit, draft)
}

fn comment_and_meaning(random: &mut Random, circuit: &Circuit, draft: &mut Draft) -> Option<Harm> {
    meaning(random, circuit, draft)?;
    comment(random, circuit, draft)
}
