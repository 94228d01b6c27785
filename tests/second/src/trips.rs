//! Files and circuits that go through several calls of the library, each given what the one before it left. The shortest
//! form leaves no choice of bytes, so a file comes back in it: a round trip. A walk steps a circuit and what it reduces to.

mod held;
mod pairs;
mod trip;
mod walk;

use crate::aiger::Form;
use crate::coverage::at_least;
use crate::library::{Call, Library};
use crate::options::Options;
use crate::tally::Tally;
use trip::{Leg, Trip};
use walk::{walk, Walk};

/// There is one trip for so many cases.
const SHARE: u64 = 4;

/// There must be so many trips.
const FEWEST: u64 = 20_000;

/// There is one walk for so many cases, and there must be so many walks.
const SHARE_OF_WALKS: u64 = 40;
const FEWEST_WALKS: u64 = 2000;

/// So many files travel together, so that the library need not wait.
const BATCH: u64 = 50;

/// A text file comes back, and converted it goes on as a binary one.
const TEXT: &[Leg] = &[
    Leg::Read,
    Leg::Back(Call::WriteText),
    Leg::Change(Call::Convert),
    Leg::Write(Call::WriteBinary),
    Leg::Settle,
];

/// A binary file comes back at once, and by way of text and conversion. Reduced, it stays what it is when it is reduced
/// again; without its unused gates, when they are dropped again and when it is reduced.
const BINARY: &[Leg] = &[
    Leg::Read,
    Leg::Back(Call::WriteBinary),
    Leg::Write(Call::WriteText),
    Leg::Read,
    Leg::Change(Call::Convert),
    Leg::Back(Call::WriteBinary),
    Leg::Change(Call::Reduce),
    Leg::Write(Call::WriteBinary),
    Leg::Settle,
    Leg::Read,
    Leg::Change(Call::Reduce),
    Leg::Back(Call::WriteBinary),
    Leg::Change(Call::Drop),
    Leg::Write(Call::WriteBinary),
    Leg::Settle,
    Leg::Read,
    Leg::Change(Call::Drop),
    Leg::Back(Call::WriteBinary),
    Leg::Change(Call::Reduce),
    Leg::Back(Call::WriteBinary),
];

pub fn run(tally: &mut Tally, options: &Options, library: &dyn Library) {
    let trips = options.cases / SHARE;
    for start in (0..trips).step_by(BATCH as usize) {
        let numbers = start..trips.min(start + BATCH);
        let mut batch: Vec<Trip> = numbers.map(|number| Trip::new(options.seed, number)).collect();
        let (mut text, mut binary): (Vec<&mut Trip>, Vec<&mut Trip>) =
            batch.iter_mut().partition(|trip| trip.form == Form::Text);
        TEXT.iter().for_each(|&leg| travel(library, &mut text, leg));
        binary.extend(text);
        BINARY.iter().for_each(|&leg| travel(library, &mut binary, leg));
        for trip in batch {
            finish(tally, options, trip);
        }
    }
    println!("round trips: {trips}");
    tally.check("round trips", at_least(trips, FEWEST));
    walks(tally, options, library);
    pairs::run(tally, options, library);
}

fn walks(tally: &mut Tally, options: &Options, library: &dyn Library) {
    let walks = options.cases / SHARE_OF_WALKS;
    for start in (0..walks).step_by(BATCH as usize) {
        let numbers = start..walks.min(start + BATCH);
        let mut batch: Vec<Walk> = numbers.map(|number| Walk::new(options.seed, number)).collect();
        walk(library, &mut batch);
        for walk in batch {
            let name = format!("walk {}", walk.number);
            if let (Err(why), true) = (&walk.outcome, tally.tells()) {
                let told = format!("{why}\n{}\n", walk.told());
                options.keep(&name.replace(' ', "-"), &[("txt", told.as_bytes())]);
            }
            tally.check(&format!("seed {} {name}", options.seed), walk.outcome);
        }
    }
    println!("walks: {walks}");
    tally.check("walks", at_least(walks, FEWEST_WALKS));
}

/// Asks for all that are on their way, then takes the replies.
fn travel(library: &dyn Library, trips: &mut [&mut Trip], leg: Leg) {
    let mut going: Vec<&mut Trip> = Vec::new();
    for trip in trips.iter_mut().filter(|trip| trip.outcome.is_ok()) {
        match trip.question(leg) {
            Some(question) => {
                library.ask(question);
                going.push(trip);
            }
            None => trip.settle(),
        }
    }
    for trip in going {
        let taken = library.reply().and_then(|reply| trip.take(leg, reply));
        trip.outcome = taken.map_err(|why| format!("{leg:?}: {why}"));
    }
}

fn finish(tally: &mut Tally, options: &Options, trip: Trip) {
    let name = format!("trip {}", trip.number);
    if let (Err(why), true) = (&trip.outcome, tally.tells()) {
        let files = [("file", trip.file.as_slice()), ("txt", why.as_bytes())];
        options.keep(&name.replace(' ', "-"), &files);
    }
    tally.check(&format!("seed {} {name}", options.seed), trip.outcome);
}
