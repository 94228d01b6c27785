//! The old plan cards: files of them, read, damaged, and sent to AIGER and back.

use crate::aiger::{apart, cards, read, write, Circuit, Form, Lengths, Refusal, Version, TABLES};
use crate::compare::cards::{ask, compare, judge};
use crate::coverage::cards::CardsCoverage;
use crate::ensure;
use crate::generate::cards::{case, cases, Cards, CardsCase};
use crate::generate::given;
use crate::library::{Call, Library, Question, Reply};
use crate::memory::Memory;
use crate::options::Options;
use crate::run_ahead;
use crate::tally::Tally;

/// There is one round of card files for so many cases.
const SHARE: u64 = 400;

/// There is one round trip for so many card files.
const TRIPS: u64 = 8;

struct Begun {
    number: u64,
    case: CardsCase,
    answer: Result<Circuit, Refusal>,
}

/// A card file that is accepted, to be sent to AIGER and back once no other reply is waited for.
struct Trip {
    name: String,
    file: Vec<u8>,
    circuit: Circuit,
}

pub fn run(tally: &mut Tally, options: &Options, library: Option<&dyn Library>) {
    worked(tally, library);
    slips(tally, options.seed);
    let mut coverage = CardsCoverage::default();
    let begun = (0..cases(options.cases / SHARE)).map(|number| {
        let next = begin(options.seed, number, library);
        coverage.add(&next.case, &next.answer);
        next
    });
    let mut trips = Vec::new();
    run_ahead(begun, |begun| trips.extend(begun.finish(tally, options, library)));
    coverage.report(tally);
    if let Some(library) = library {
        for Trip { name, file, circuit } in trips {
            let trip = there_and_back(library, &file, &circuit);
            tally.check(&format!("seed {} {name} there and back", options.seed), trip);
        }
        tally.check("cards with too many records", large(library));
    }
}

fn begin(seed: u64, number: u64, library: Option<&dyn Library>) -> Begun {
    let case = case(seed, number);
    let answer = cards::read(&case.file, &case.lengths);
    if let Some(library) = library {
        ask(library, &case.file, &case.lengths, case.junk);
    }
    Begun { number, case, answer }
}

impl Begun {
    fn finish(self, tally: &mut Tally, options: &Options, library: Option<&dyn Library>) -> Option<Trip> {
        let name = format!("cards case {}", self.number);
        let judged = library.map_or(Ok(()), |library| judge(library, self.case.junk, &self.answer));
        let outcome = judged.and_then(|()| self.check());
        if let (Err(why), true) = (&outcome, tally.tells()) {
            let told = format!(
                "lent {:?}, filled from {}\nforetold {:?}\n{why}\n",
                self.case.lengths, self.case.junk, self.case.promise
            );
            let files = [("file", self.case.file.as_slice()), ("txt", told.as_bytes())];
            options.keep(&name.replace(' ', "-"), &files);
        }
        tally.check(&format!("seed {} {name}", options.seed), outcome);
        let circuit = self.answer.ok().filter(|_| self.number.is_multiple_of(TRIPS))?;
        let file = self.case.file;
        Some(Trip { name, file, circuit })
    }

    fn check(&self) -> Result<(), String> {
        let (case, answer) = (&self.case, &self.answer);
        if let Some(promise) = &case.promise {
            ensure!(promise == answer, "foretold {promise:?}, given {answer:?}");
        }
        let Ok(circuit) = answer else {
            return Ok(());
        };
        ensure!(cards::file(circuit) == case.file, "written otherwise");
        // By way of AIGER they come back.
        let binary = write::file(circuit, Form::Binary, b"");
        let again = read::read(&binary, &circuit.counts().words(), Version::V19);
        ensure!(
            again == Ok((circuit.clone(), binary.len())),
            "read from its binary: {again:?}"
        );
        Ok(())
    }
}

/// Cards to AIGER to cards to AIGER, each call given what the one before it left.
fn there_and_back(library: &dyn Library, file: &[u8], circuit: &Circuit) -> Result<(), String> {
    let binary = write::file(circuit, Form::Binary, b"");
    let mut lengths = circuit.counts().words();
    let mut held = read_cards(library, file, &lengths)?;
    for _ in 0..2 {
        let aiger = written(library, Call::WriteBinary, &held, binary.len())?;
        ensure!(aiger == binary, "in AIGER {aiger:02x?}");
        lengths = TABLES.map(|table| read::words(&aiger, table));
        let Ok((read, _)) = read::read(&aiger, &lengths, Version::V19) else {
            return Err("AIGER that can't be read".to_string());
        };
        let back = written(library, Call::WriteCards, &read, file.len())?;
        ensure!(back == file, "comes back as {back:02x?}");
        held = read_cards(library, &back, &circuit.counts().words())?;
    }
    Ok(())
}

const JUNK: u64 = 1 << 33 | 1;

/// The circuit in the tables that the library left.
fn read_cards(library: &dyn Library, file: &[u8], lengths: &Lengths) -> Result<Circuit, String> {
    ask(library, file, lengths, JUNK);
    let Reply::Cards(reply) = library.reply()? else {
        return Err("the reply to another question".to_string());
    };
    ensure!(reply.answer[..2] == [0, 0], "given {:?}", reply.answer);
    let (tables, _) = apart(reply.tables.map(|table| table.lent().to_vec()));
    Ok(Circuit::of_tables(reply.answer[2], &tables))
}

fn written(library: &dyn Library, call: Call, circuit: &Circuit, room: usize) -> Result<Vec<u8>, String> {
    let mut lent = given::lend(call, &given::exactly(call, circuit), JUNK);
    lent.bytes = vec![Memory::junk(0, JUNK), Memory::junk(room as u64, JUNK)];
    library.ask(Question::Tables(call, lent));
    let Reply::Tables(lent) = library.reply()? else {
        return Err("the reply to another question".to_string());
    };
    let answer = lent.answer.lent();
    ensure!(answer[..2] == [0, 0], "given {answer:?}");
    Ok(lent.bytes[1].lent()[..answer[2] as usize].to_vec())
}

/// The paper's toggle, worked by hand: M I L O A are 7 2 1 2 4.
const TOGGLE: &[u8] = b"PH\x07\0\0\0\x02\0\0\0\x01\0\0\0\x02\0\0\0\x04\0\0\0\
    PL\x0e\0\0\0\
    PO\x06\0\0\0PO\x07\0\0\0\
    PA\x06\0\0\0\x02\0\0\0PA\x07\0\0\0\x03\0\0\0PA\x0b\0\0\0\x09\0\0\0PA\x0c\0\0\0\x04\0\0\0";

/// Its binary file, from the paper.
const BINARY: &[u8] = b"aig 7 2 1 2 4\n14\n6\n7\n\x02\x04\x03\x04\x01\x02\x02\x08";

/// Bytes put at a place of the toggle's cards, and what is told of it then.
const TOLD: &[(usize, &[u8], u64, u64)] = &[
    (0, b"pH", 18, 0),
    (22, b"PO", 18, 22),
    (28, b"PL", 18, 28),
    (40, b"AP", 18, 40),
    // The wrong mark comes before what the counts say.
    (0, b"PP\xff\xff\xff\xff", 18, 0),
    (2, b"\xff\xff\xff\xff", 2, 2),
    (2, b"\0\0\x10\0", 2, 2),
    (2, b"\xff\xff\x0f\0", 3, 0),
    (6, b"\0\0\x10\0", 2, 6),
    (10, b"\xff\xff\xff\xff", 1, 80),
    (10, b"\0", 1, 74),
    (14, b"\x03", 1, 80),
    (18, b"\x03", 1, 70),
    (18, b"\xff\xff\xff\xff", 1, 80),
    (6, b"\x03", 3, 0),
    (24, b"\x0f", 0, 0),
    (24, b"\x10", 5, 2),
    (30, b"\0\x01", 5, 3),
    (42, b"\x10", 5, 4),
    (42, b"\x08", 15, 0),
    (42, b"\x01", 15, 0),
];

fn worked(tally: &mut Tally, library: Option<&dyn Library>) {
    tally.check("the toggle's cards", toggle(library));
    for &(at, bytes, number, place) in TOLD {
        let mut file = TOGGLE.to_vec();
        file[at..at + bytes.len()].copy_from_slice(bytes);
        tally.check(
            &format!("the toggle's cards with {bytes:?} at {at}"),
            tell(library, &file, number, place),
        );
    }
    for length in 0..=TOGGLE.len() {
        let (number, place) = match length {
            80 => (0, 0),
            _ => (1, length as u64),
        };
        tally.check(
            &format!("{length} bytes of the toggle's cards"),
            tell(library, &TOGGLE[..length], number, place),
        );
    }
    let longer = [TOGGLE, b"PA\0\0\0\0\0\0\0\0"].concat();
    tally.check("a gate too many", tell(library, &longer, 1, 80));
}

fn toggle(library: Option<&dyn Library>) -> Result<(), String> {
    let (circuit, _) = read::read(BINARY, &[u64::MAX; 8], Version::V19).map_err(|refusal| refusal.line())?;
    let given = cards::read(TOGGLE, &circuit.counts().words());
    ensure!(given == Ok(circuit.clone()), "given {given:?}");
    ensure!(cards::file(&circuit) == TOGGLE, "written otherwise");
    ensure!(Cards::new(&circuit).file() == TOGGLE, "made otherwise");
    library.map_or(Ok(()), |library| there_and_back(library, TOGGLE, &circuit))
}

fn tell(library: Option<&dyn Library>, file: &[u8], number: u64, place: u64) -> Result<(), String> {
    let lengths = [99; 8];
    let answer = cards::read(file, &lengths);
    let given = answer
        .as_ref()
        .map_or_else(|refusal| [refusal.number, refusal.place], |_| [0, 0]);
    ensure!(
        given == [number, place],
        "expected {number} at {place}, given {given:?}"
    );
    library.map_or(Ok(()), |library| compare(library, file, &lengths, JUNK, &answer))
}

/// L, O and A just too large, in files that are as long as that.
fn large(library: &dyn Library) -> Result<(), String> {
    for (k, mark, bytes) in [(2, b"PL", 6), (3, b"PO", 6), (4, b"PA", 10)] {
        let count = 1u32 << 20;
        let mut file = b"PH".to_vec();
        let mut head = [0; 5];
        (head[0], head[k]) = (if k == 3 { 0 } else { count - 1 }, count);
        head.iter().for_each(|number| file.extend(number.to_le_bytes()));
        let record = [mark.as_slice(), &vec![0; bytes - 2]].concat();
        file.extend(record.repeat(count as usize));
        tell(Some(library), &file, 2, 2 + 4 * k as u64)?;
        file.pop();
        tell(Some(library), &file, 1, file.len() as u64)?;
    }
    Ok(())
}

/// A reader of cards with a slip.
type Slip = fn(&[u8], &Lengths) -> Result<Circuit, Refusal>;

const SLIPS: &[(&str, Slip)] = &[
    ("high byte first", |file, lengths| {
        let mut turned = file.to_vec();
        if let Some(head) = turned.get_mut(2..22) {
            head.as_chunks_mut::<4>()
                .0
                .iter_mut()
                .for_each(|number| number.reverse());
        }
        cards::read(&turned, lengths)
    }),
    ("18 before 1", |file, lengths| match cards::read(file, lengths) {
        Err(Refusal { number: 1, .. }) if !file.starts_with(b"PH") => Err(Refusal { number: 18, place: 0 }),
        answer => answer,
    }),
    ("the first mark alone", |file, lengths| {
        match cards::read(file, lengths) {
            Err(Refusal { number: 18, place: 1.. }) => Err(Refusal { number: 15, place: 0 }),
            answer => answer,
        }
    }),
    ("2 with the table's place", |file, lengths| {
        cards::read(file, lengths).map_err(|refusal| match refusal.number {
            2 => Refusal {
                place: (refusal.place + 2) / 4,
                ..refusal
            },
            _ => refusal,
        })
    }),
    ("table 5 not looked at", |file, lengths| {
        let mut more = *lengths;
        more[4] = u64::MAX;
        cards::read(file, &more)
    }),
    ("the length in 32 bits", |file, lengths| {
        match cards::read(file, lengths) {
            Err(Refusal { number: 1, .. }) if file.get(13).is_some_and(|byte| byte & 0x80 > 0) => {
                Err(Refusal { number: 2, place: 10 })
            }
            answer => answer,
        }
    }),
    ("15 omitted", |file, lengths| match cards::read(file, lengths) {
        Err(Refusal { number: 15, .. }) => Ok(Circuit::default()),
        answer => answer,
    }),
];

/// Whether the cases would notice each slip.
fn slips(tally: &mut Tally, seed: u64) {
    for (name, slip) in SLIPS {
        let notices = |number: u64| {
            let case = case(seed, number);
            slip(&case.file, &case.lengths) != cards::read(&case.file, &case.lengths)
        };
        let noticed = (0..500).any(notices);
        let noticed = if noticed {
            Ok(())
        } else {
            Err("not noticed".to_string())
        };
        tally.check(&format!("cards with the slip {name:?}"), noticed);
    }
}
