//! One file on its way, and what the library left of the call before.

use super::held::{accepted, Held};
use crate::aiger::read::{header, words};
use crate::aiger::{apart, Counts, Form, Version, TABLES};
use crate::ensure;
use crate::generate;
use crate::library::{Call, FileQuestion, Lent, Question, Reply};
use crate::memory::Memory;

#[derive(Clone, Copy, Debug)]
pub enum Leg {
    Read,
    Write(Call),
    /// Writes into exactly enough room what the file must be.
    Back(Call),
    /// What was written last is what the file must be from now on.
    Settle,
    /// Converts, reduces or drops unused gates.
    Change(Call),
}

pub struct Trip {
    pub number: u64,
    /// As it set out.
    pub file: Vec<u8>,
    pub form: Form,
    pub outcome: Result<(), String>,
    /// What must come back: the shortest form of it.
    home: Vec<u8>,
    /// What was written last.
    pub bytes: Vec<u8>,
    held: Held,
    tail: Vec<u8>,
}

impl Trip {
    pub fn new(seed: u64, number: u64) -> Trip {
        let [file, home] = generate::whole(seed, number);
        Trip::of(number, file, home)
    }

    /// A file that sets out, and what must come back.
    pub fn of(number: u64, file: Vec<u8>, home: Vec<u8>) -> Trip {
        let header = header(&file, Version::V19).expect("a well-formed file");
        Trip {
            number,
            form: header.form,
            outcome: Ok(()),
            home,
            bytes: file.clone(),
            file,
            held: Held::none(),
            tail: Vec::new(),
        }
    }

    /// Fills all that is lent; every other trip has margins.
    fn junk(&self) -> u64 {
        (0x5DEE_CE66 << 32) + self.number
    }

    pub fn question(&self, leg: Leg) -> Option<Question> {
        match leg {
            Leg::Read => Some(self.read()),
            Leg::Write(call) => Some(self.write(call, self.most())),
            Leg::Back(call) => Some(self.write(call, self.home.len() as u64)),
            Leg::Change(call) => Some(Question::Tables(call, self.held.lent(call, self.junk()))),
            Leg::Settle => None,
        }
    }

    pub fn take(&mut self, leg: Leg, reply: Reply) -> Result<(), String> {
        match (leg, reply) {
            (Leg::Read, Reply::File(reply)) => {
                let read = reply.reads.into_iter().next().ok_or("nothing was read")?;
                let tail = self.bytes.get(read.answer.tail as usize..);
                self.tail = tail.ok_or("a tail past the end")?.to_vec();
                self.held = Held::was_read(read)?;
                Ok(())
            }
            (Leg::Write(_), Reply::Tables(lent)) => self.was_written(&lent),
            (Leg::Back(_), Reply::Tables(lent)) => {
                self.was_written(&lent)?;
                ensure!(self.bytes == self.home, "comes back as {:02x?}", self.bytes);
                Ok(())
            }
            (Leg::Change(_), Reply::Tables(lent)) => {
                self.held = Held::was_changed(*lent)?;
                Ok(())
            }
            _ => Err("the reply to another question".to_string()),
        }
    }

    pub fn settle(&mut self) {
        self.home = self.bytes.clone();
    }

    fn read(&self) -> Question {
        let lengths = TABLES.map(|table| words(&self.bytes, table));
        Question::File(FileQuestion {
            file: self.bytes.clone(),
            words: Vec::new(),
            readers: &[Version::V19],
            tables: lengths.map(|length| Memory::junk(length, self.junk())),
        })
    }

    /// A file of either form has at most eight bytes for each word, a header and the tail.
    fn most(&self) -> u64 {
        let (words, _) = apart(Counts::new(self.held.counts).words());
        8 * words.iter().sum::<u64>() + 60 + self.tail.len() as u64
    }

    fn write(&self, call: Call, room: u64) -> Question {
        let junk = self.junk();
        let mut lent = self.held.lent(call, junk);
        lent.bytes = vec![Memory::around(&self.tail, junk), Memory::junk(room, junk)];
        Question::Tables(call, lent)
    }

    fn was_written(&mut self, lent: &Lent) -> Result<(), String> {
        accepted(lent)?;
        let written = lent.answer.lent()[2] as usize;
        self.bytes = lent.bytes[1].lent()[..written].to_vec();
        Ok(())
    }
}
