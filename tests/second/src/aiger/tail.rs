//! The symbol and comment part. Places are offsets within it.

use super::bytes::Cursor;
use super::{refuse, Counts, Refusal, Version};
use std::collections::HashSet;

/// Judges a whole tail, line by line, each symbol line by 1 and then 10.
pub fn check(tail: &[u8], counts: &Counts, version: Version) -> Result<(), Refusal> {
    let mut cursor = Cursor::new(tail, 0);
    let mut named = HashSet::new();
    while cursor.peek().is_some() {
        let start = cursor.at;
        let kind = cursor.one_of(letters(version))?;
        let names = version == Version::V19 && cursor.peek().is_some_and(|byte| byte.is_ascii_digit());
        if kind == b'c' && !names {
            return comment(&mut cursor);
        }
        let position = symbol(&mut cursor)?;
        let count = match kind {
            b'i' => counts.i,
            b'l' => counts.l,
            b'o' => counts.o,
            b'b' => counts.b,
            _ => counts.c,
        };
        if position >= count || !named.insert((kind, position)) {
            return refuse(10, start);
        }
    }
    Ok(())
}

/// What a line may start with. In 1.9 "c" and a digit is a constraint's symbol.
fn letters(version: Version) -> &'static [u8] {
    match version {
        Version::V2007 => b"iloc",
        Version::V19 => b"ilobc",
    }
}

/// The rest of a symbol line; its position.
fn symbol(cursor: &mut Cursor) -> Result<u64, Refusal> {
    let position = cursor.number()?;
    cursor.one_of(b" ")?;
    while let Some(32..=126) = cursor.peek() {
        cursor.at += 1;
    }
    cursor.one_of(b"\n")?;
    Ok(position.value)
}

/// The rest of the tail after "c": a new line, then any bytes, the last of them a new line.
fn comment(cursor: &mut Cursor) -> Result<(), Refusal> {
    cursor.one_of(b"\n")?;
    match cursor.file.last() {
        Some(b'\n') => Ok(()),
        _ => refuse(1, cursor.file.len()),
    }
}
