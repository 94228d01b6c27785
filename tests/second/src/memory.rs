//! Memory that is lent to a call. Nobody may touch its margins.

use std::fmt::Debug;

/// What memory is made of, and its bytes on the way to the server.
pub trait Element: Copy + PartialEq + Debug {
    const SIZE: usize;

    /// Never zero, so that an element left as it was shows.
    fn filling(junk: u64) -> Self;

    fn put(self, bytes: &mut Vec<u8>);

    /// From `SIZE` bytes.
    fn get(bytes: &[u8]) -> Self;
}

macro_rules! element {
    ($element:ty) => {
        impl Element for $element {
            const SIZE: usize = size_of::<$element>();

            fn filling(junk: u64) -> $element {
                (junk >> 32) as $element | 1
            }

            fn put(self, bytes: &mut Vec<u8>) {
                bytes.extend(self.to_le_bytes());
            }

            fn get(bytes: &[u8]) -> $element {
                <$element>::from_le_bytes(bytes.try_into().expect("SIZE bytes"))
            }
        }
    };
}

element!(u8);
element!(u32);
element!(u64);

#[derive(Clone, Debug, PartialEq, Eq)]
pub struct Memory<T> {
    pub all: Vec<T>,
    /// Elements on each side of those that are lent.
    pub margin: usize,
}

impl<T: Element> Memory<T> {
    /// Full of junk. Half of the cases have margins, which show an element written beside the memory; in the others it
    /// is all the memory there is, so that a checker of addresses sees what lies outside.
    pub fn junk(length: u64, junk: u64) -> Memory<T> {
        let margin = if junk.is_multiple_of(2) { 0 } else { 4 };
        let all = (0..length as usize + 2 * margin).map(|k| filling(junk, k)).collect();
        Memory { all, margin }
    }

    /// Holds what is given, with margins of junk.
    pub fn around(lent: &[T], junk: u64) -> Memory<T> {
        let mut memory = Memory::junk(lent.len() as u64, junk);
        memory.lent_mut().copy_from_slice(lent);
        memory
    }

    pub fn lent(&self) -> &[T] {
        &self.all[self.margin..self.all.len() - self.margin]
    }

    pub fn lent_mut(&mut self) -> &mut [T] {
        let end = self.all.len() - self.margin;
        &mut self.all[self.margin..end]
    }

    /// Whether the margins are as `junk` made them.
    pub fn margins_stand(&self, junk: u64) -> bool {
        let mut margins = (0..self.margin).chain(self.all.len() - self.margin..self.all.len());
        margins.all(|k| self.all[k] == filling(junk, k))
    }
}

fn filling<T: Element>(junk: u64, k: usize) -> T {
    T::filling(junk.wrapping_mul(2 * k as u64 + 1))
}
