//! A circuit that the library converts, reduces and steps, with and without values for "x". What is known stays known:
//! after reduction, in every other walk without unused gates too, and when an "x" gets a value.

use super::held::{accepted, Held};
use crate::aiger::tables::Given;
use crate::aiger::{step, Form};
use crate::ensure;
use crate::generate::{circuit, given, values};
use crate::library::{Call, Lent, Library, Question, Reply};
use crate::memory::Memory;
use crate::random::Random;

const STEPS: usize = 4;

/// A run of one circuit over one list.
struct Run {
    reduced: bool,
    grounded: bool,
    state: Vec<u8>,
    /// The values of outputs, bad states and constraints.
    output: Vec<u8>,
    /// Whether all constraints were 1 till now.
    kept: bool,
    /// Whether, while they were, some output or bad state was.
    seen: bool,
}

pub struct Walk {
    pub number: u64,
    pub outcome: Result<(), String>,
    given: Given,
    converted: Held,
    reduced: Held,
    /// The first state and the list as they are, and with values for "x".
    starts: [Vec<u8>; 2],
    lists: [Vec<Vec<u8>>; 2],
    runs: Vec<Run>,
}

impl Walk {
    pub fn new(seed: u64, number: u64) -> Walk {
        let mut random = Random::new(seed, 3 << 62 | number);
        let size = circuit::size(&mut random, Form::Text);
        let circuit = circuit::circuit(&mut random, Form::Text, &size);
        let unknown = random.below(4);
        let list: Vec<Vec<u8>> = (0..STEPS)
            .map(|_| values::vector(&mut random, unknown, circuit.inputs.len()))
            .collect();
        let grounded = list.iter().map(|vector| values::ground(&mut random, vector)).collect();
        let start = step::start(&circuit);
        let starts = [start.clone(), values::ground(&mut random, &start)];
        let kinds = [(false, false), (true, false), (false, true), (true, true)];
        let run = |(reduced, grounded)| Run {
            reduced,
            grounded,
            state: starts[usize::from(grounded)].clone(),
            output: Vec::new(),
            kept: true,
            seen: false,
        };
        Walk {
            number,
            outcome: Ok(()),
            runs: kinds.map(run).into_iter().collect(),
            given: Given::exactly(&circuit),
            converted: Held::none(),
            reduced: Held::none(),
            starts,
            lists: [list, grounded],
        }
    }

    /// Fills all that is lent; every other walk has margins.
    fn junk(&self) -> u64 {
        (0x5DEE_CE66 << 32) + self.number
    }

    /// What it sets out with.
    pub fn told(&self) -> String {
        let [list, grounded] = self.lists.each_ref().map(|list| list.concat());
        let [list, grounded] = [&list, &grounded].map(|list| String::from_utf8_lossy(list));
        format!("{:?}\nlist {list}\nwith values for x {grounded}", self.given)
    }

    fn held(&self, reduced: bool) -> &Held {
        if reduced {
            &self.reduced
        } else {
            &self.converted
        }
    }

    fn step(&self, run: &Run, k: usize) -> Lent {
        let junk = self.junk();
        let held = self.held(run.reduced).asked(junk);
        let mut lent = held.lent(Call::Step, junk);
        lent.bytes = vec![
            Memory::around(&run.state, junk),
            Memory::around(&self.lists[usize::from(run.grounded)][k], junk),
            Memory::junk(held.counts[3], junk),
        ];
        lent
    }

    fn witness(&self, call: Call, run: &Run) -> Lent {
        let junk = self.junk();
        let held = self.held(run.reduced);
        let mut lent = if run.grounded {
            held.starting(&self.starts[1], junk).lent(call, junk)
        } else {
            held.lent(call, junk)
        };
        lent.numbers = vec![STEPS as u64];
        // Without x the one filling there is decides.
        lent.numbers.extend((call == Call::Witness).then_some(1));
        let list = self.lists[usize::from(run.grounded)].concat();
        lent.bytes = vec![Memory::around(&list, junk)];
        lent
    }

    /// What one step of the four runs shows.
    fn compare(&self) -> Result<(), String> {
        let [plain, reduced, ground, both] = self.runs.as_slice() else {
            unreachable!("four runs");
        };
        ensure!(knows(reduced, plain), "reduction loses a value");
        ensure!(knows(ground, plain), "a value for x loses another");
        ensure!(
            (&ground.state, &ground.output) == (&both.state, &both.output),
            "without x reduction gives other values"
        );
        let known = [&ground.state, &ground.output].into_iter().flatten();
        ensure!(known.into_iter().all(|value| b"01".contains(value)), "x out of nothing");
        Ok(())
    }
}

/// Whether the one run has the other's "0" and "1" at least.
fn knows(one: &Run, other: &Run) -> bool {
    let at_least = |one: &[u8], other: &[u8]| {
        let mut values = one.iter().zip(other);
        one.len() == other.len() && values.all(|(a, b)| a == b || *b == b'x')
    };
    at_least(&one.state, &other.state) && at_least(&one.output, &other.output)
}

/// Takes all walks through the library together.
pub fn walk(library: &dyn Library, walks: &mut [Walk]) {
    let convert = |walk: &Walk| vec![(Call::Convert, given::lend(Call::Convert, &walk.given, walk.junk()))];
    pass(library, walks, convert, |walk, lents| {
        walk.converted = lents.into_iter().map(Held::was_changed).next().expect("one reply")?;
        Ok(())
    });
    let reduce = |walk: &Walk| vec![(Call::Reduce, walk.converted.lent(Call::Reduce, walk.junk()))];
    pass(library, walks, reduce, |walk, lents| {
        walk.reduced = lents.into_iter().map(Held::was_changed).next().expect("one reply")?;
        Ok(())
    });
    let drops = |walk: &Walk| match walk.number % 2 {
        0 => vec![(Call::Drop, walk.reduced.lent(Call::Drop, walk.junk()))],
        _ => Vec::new(),
    };
    pass(library, walks, drops, |walk, lents| {
        if let Some(dropped) = lents.into_iter().map(Held::was_changed).next() {
            walk.reduced = dropped?;
        }
        Ok(())
    });
    for k in 0..STEPS {
        let step = |walk: &Walk| walk.runs.iter().map(|run| (Call::Step, walk.step(run, k))).collect();
        pass(library, walks, step, stepped);
    }
    let witness3 = |walk: &Walk| {
        let runs = walk.runs.iter();
        runs.map(|run| (Call::Witness3, walk.witness(Call::Witness3, run)))
            .collect()
    };
    pass(library, walks, witness3, |walk, lents| {
        answered(walk.runs.iter().collect(), lents)
    });
    let witness = |walk: &Walk| {
        let runs = walk.runs.iter().filter(|run| run.grounded);
        runs.map(|run| (Call::Witness, walk.witness(Call::Witness, run)))
            .collect()
    };
    pass(library, walks, witness, |walk, lents| {
        answered(walk.runs.iter().filter(|run| run.grounded).collect(), lents)
    });
}

fn stepped(walk: &mut Walk, lents: Vec<Lent>) -> Result<(), String> {
    let [_, _, _, o, _, b, _] = walk.converted.counts;
    for (run, lent) in walk.runs.iter_mut().zip(lents) {
        accepted(&lent)?;
        run.state = lent.bytes[0].lent().to_vec();
        run.output = lent.bytes[2].lent().to_vec();
        let (shown, constraints) = run.output.split_at((o + b) as usize);
        run.kept &= constraints.iter().all(|&value| value == b'1');
        run.seen |= run.kept && shown.contains(&b'1');
    }
    walk.compare()
}

/// The witness questions say what the steps have shown.
fn answered(runs: Vec<&Run>, lents: Vec<Lent>) -> Result<(), String> {
    for (run, lent) in runs.into_iter().zip(lents) {
        accepted(&lent)?;
        let given = lent.answer.lent()[2];
        ensure!(
            given == u64::from(run.seen),
            "witness: given {given}, seen {}",
            run.seen
        );
    }
    Ok(())
}

/// Asks for all that are on their way, then takes the replies.
fn pass(
    library: &dyn Library,
    walks: &mut [Walk],
    questions: impl Fn(&Walk) -> Vec<(Call, Lent)>,
    take: impl Fn(&mut Walk, Vec<Lent>) -> Result<(), String>,
) {
    let mut going = Vec::new();
    for walk in walks.iter_mut().filter(|walk| walk.outcome.is_ok()) {
        let questions = questions(walk);
        going.push((questions.len(), walk));
        for (call, lent) in questions {
            library.ask(Question::Tables(call, lent));
        }
    }
    for (asked, walk) in going {
        let replies: Vec<Result<Reply, String>> = (0..asked).map(|_| library.reply()).collect();
        let lents: Result<Vec<Lent>, String> = replies.into_iter().map(|reply| tables(reply?)).collect();
        walk.outcome = lents.and_then(|lents| take(walk, lents));
    }
}

fn tables(reply: Reply) -> Result<Lent, String> {
    match reply {
        Reply::Tables(lent) => Ok(*lent),
        Reply::File(_) | Reply::Cards(_) => Err("the reply to another question".to_string()),
    }
}
