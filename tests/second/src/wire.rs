//! Questions and replies as the bytes that `tests/desk/server.c` reads and writes.

use crate::aiger::Version;
use crate::library::{
    Call, CardsQuestion, CardsReply, FileQuestion, FileReply, Lent, Question, ReadAnswer, ReadReply, Reply,
};
use crate::memory::{Element, Memory};
use std::io::{self, Read};

/// Not zeros, so that an answer that isn't filled in shows.
const UNANSWERED: u64 = 0xAAAA_AAAA_AAAA_AAAA;

/// The calls of a question, and send.
pub fn request(question: &Question) -> Vec<u8> {
    let mut bytes = Vec::new();
    match question {
        Question::File(question) => put_file_question(&mut bytes, question),
        Question::Cards(question) => put_cards_question(&mut bytes, question),
        Question::Tables(call, lent) => {
            put_call(&mut bytes, number(*call));
            put_lent(&mut bytes, lent);
        }
    }
    put_call(&mut bytes, 0);
    bytes
}

fn number(call: Call) -> u32 {
    match call {
        Call::Check => 3,
        Call::WriteText => 4,
        Call::WriteBinary => 5,
        Call::Convert => 6,
        Call::Reduce => 7,
        Call::Step => 8,
        Call::Witness => 9,
        Call::Drop => 11,
        Call::Report => 12,
        Call::Witness3 => 13,
        Call::Rows => 14,
        Call::ReportRows => 15,
        Call::Explain => 16,
        Call::StepPlain => 17,
        Call::Rewire => 18,
        Call::WriteCards => 20,
    }
}

fn reader(version: Version) -> u32 {
    match version {
        Version::V19 => 2,
        Version::V2007 => 10,
    }
}

/// The calls words and read.
fn put_file_question(bytes: &mut Vec<u8>, question: &FileQuestion) {
    let FileQuestion {
        file,
        words,
        readers,
        tables,
    } = question;
    put_call(bytes, 1);
    put_file(bytes, file);
    put_number(bytes, words.len());
    words.iter().for_each(|table| table.put(bytes));
    let answer = Memory {
        all: vec![UNANSWERED; 9],
        margin: 0,
    };
    for &version in *readers {
        put_call(bytes, reader(version));
        put_file(bytes, file);
        tables.iter().for_each(|table| put_memory(bytes, table));
        put_memory(bytes, &answer);
    }
}

fn put_cards_question(bytes: &mut Vec<u8>, CardsQuestion { file, tables }: &CardsQuestion) {
    put_call(bytes, 19);
    put_file(bytes, file);
    tables.iter().for_each(|table| put_memory(bytes, table));
    let answer = Memory {
        all: vec![UNANSWERED; 9],
        margin: 0,
    };
    put_memory(bytes, &answer);
}

fn put_lent(bytes: &mut Vec<u8>, lent: &Lent) {
    put_memory(bytes, &lent.counts);
    lent.tables.iter().for_each(|table| put_memory(bytes, table));
    put_memory(bytes, &lent.scratch);
    lent.written.iter().for_each(|table| put_memory(bytes, table));
    lent.numbers.iter().for_each(|number| number.put(bytes));
    lent.bytes.iter().for_each(|memory| put_memory(bytes, memory));
    put_memory(bytes, &lent.answer);
}

fn put_call(bytes: &mut Vec<u8>, call: u32) {
    call.put(bytes);
}

fn put_number(bytes: &mut Vec<u8>, number: usize) {
    (number as u64).put(bytes);
}

fn put_file(bytes: &mut Vec<u8>, file: &[u8]) {
    put_number(bytes, file.len());
    bytes.extend(file);
}

fn put_memory<T: Element>(bytes: &mut Vec<u8>, memory: &Memory<T>) {
    put_number(bytes, memory.margin);
    put_number(bytes, memory.lent().len());
    bytes.reserve(T::SIZE * memory.all.len());
    memory.all.iter().for_each(|element| element.put(bytes));
}

pub fn reply(from: &mut impl Read, question: Question) -> io::Result<Reply> {
    match question {
        Question::File(question) => Ok(Reply::File(get_file_reply(from, question)?)),
        Question::Cards(question) => Ok(Reply::Cards(Box::new(get_cards(from, question.tables)?))),
        Question::Tables(_, lent) => Ok(Reply::Tables(Box::new(get_lent(from, lent)?))),
    }
}

fn get_lent(from: &mut impl Read, mut lent: Lent) -> io::Result<Lent> {
    get_memory(from, &mut lent.counts)?;
    lent.tables.iter_mut().try_for_each(|table| get_memory(from, table))?;
    get_memory(from, &mut lent.scratch)?;
    lent.written.iter_mut().try_for_each(|table| get_memory(from, table))?;
    lent.bytes.iter_mut().try_for_each(|memory| get_memory(from, memory))?;
    get_memory(from, &mut lent.answer)?;
    Ok(lent)
}

fn get_file_reply(from: &mut impl Read, question: FileQuestion) -> io::Result<FileReply> {
    let words = get(from, question.words.len())?;
    let readers = question.readers.iter();
    let reads = readers.map(|_| get_read(from, question.tables.clone()));
    let reads = reads.collect::<io::Result<_>>()?;
    Ok(FileReply { words, reads })
}

fn get_cards(from: &mut impl Read, mut tables: [Memory<u32>; 8]) -> io::Result<CardsReply> {
    tables.iter_mut().try_for_each(|table| get_memory(from, table))?;
    let answer: Vec<u64> = get(from, 9)?;
    let answer = answer.try_into().expect("nine words");
    Ok(CardsReply { answer, tables })
}

fn get_read(from: &mut impl Read, mut tables: [Memory<u32>; 8]) -> io::Result<ReadReply> {
    tables.iter_mut().try_for_each(|table| get_memory(from, table))?;
    let answer: Vec<u64> = get(from, 9)?;
    let tail: Vec<u64> = get(from, 1)?;
    let answer = ReadAnswer {
        number: answer[0],
        place: answer[1],
        counts: [2, 3, 4, 5, 6, 7, 8].map(|k| answer[k]),
        tail: tail[0],
    };
    Ok(ReadReply { answer, tables })
}

fn get<T: Element>(from: &mut impl Read, length: usize) -> io::Result<Vec<T>> {
    let mut bytes = vec![0; T::SIZE * length];
    from.read_exact(&mut bytes)?;
    Ok(bytes.chunks_exact(T::SIZE).map(T::get).collect())
}

fn get_memory<T: Element>(from: &mut impl Read, memory: &mut Memory<T>) -> io::Result<()> {
    memory.all = get(from, memory.all.len())?;
    Ok(())
}
