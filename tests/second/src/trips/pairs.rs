//! One plan in other numbers: the library converts both files to the same bytes, and reduces them to the same.

use super::travel;
use super::trip::{Leg, Trip};
use crate::coverage::at_least;
use crate::ensure;
use crate::generate::renamed::{renamed, Renamed};
use crate::library::{Call, Library};
use crate::options::Options;
use crate::tally::Tally;

/// There is one pair for so many cases, and there must be so many; of those most have other bytes, and a near miss.
const SHARE: u64 = 40;
const FEWEST: u64 = 2000;
const FEWEST_OTHERS: u64 = 1500;

/// So many pairs travel together.
const BATCH: usize = 50;

const CONVERTED: &[Leg] = &[
    Leg::Read,
    Leg::Change(Call::Convert),
    Leg::Write(Call::WriteBinary),
    Leg::Settle,
];

const REDUCED: &[Leg] = &[Leg::Change(Call::Reduce), Leg::Write(Call::WriteBinary)];

pub fn run(tally: &mut Tally, options: &Options, library: &dyn Library) {
    let numbers: Vec<u64> = (0..options.cases / SHARE).collect();
    let (mut others, mut misses) = (0, 0);
    for batch in numbers.chunks(BATCH) {
        let pairs = batch.iter().map(|&number| (number, renamed(options.seed, number)));
        let pairs: Vec<(u64, Renamed)> = pairs.collect();
        others += pairs.iter().filter(|(_, pair)| pair.files[0] != pair.files[1]).count() as u64;
        misses += pairs.iter().filter(|(_, pair)| pair.miss.is_some()).count() as u64;
        for (number, outcome) in compared(library, &pairs) {
            tally.check(&format!("seed {} pair {number}", options.seed), outcome);
        }
    }
    println!(
        "pairs in other numbers: {}, with other bytes {others}, near misses {misses}",
        numbers.len()
    );
    tally.check("pairs", at_least(numbers.len() as u64, FEWEST));
    tally.check("pairs with other bytes", at_least(others, FEWEST_OTHERS));
    tally.check("near misses", at_least(misses, FEWEST_OTHERS));
}

/// What comes of the pairs, which go through the library together.
fn compared(library: &dyn Library, pairs: &[(u64, Renamed)]) -> Vec<(u64, Result<(), String>)> {
    let set_out = |number: u64, file: &Vec<u8>| Trip::of(number, file.clone(), Vec::new());
    let mut trips: Vec<Vec<Trip>> = pairs
        .iter()
        .map(|(number, pair)| {
            pair.files
                .iter()
                .chain(&pair.miss)
                .map(|file| set_out(*number, file))
                .collect()
        })
        .collect();
    let mut go = |legs: &[Leg]| -> Vec<Vec<Result<Vec<u8>, String>>> {
        let mut all: Vec<&mut Trip> = trips.iter_mut().flatten().collect();
        legs.iter().for_each(|&leg| travel(library, &mut all, leg));
        let written = |trip: &Trip| trip.outcome.clone().map(|()| trip.bytes.clone());
        trips.iter().map(|trips| trips.iter().map(written).collect()).collect()
    };
    let converted = go(CONVERTED);
    let reduced = go(REDUCED);
    let outcomes = converted
        .iter()
        .zip(&reduced)
        .map(|(converted, reduced)| same(converted, reduced));
    pairs.iter().map(|(number, _)| *number).zip(outcomes).collect()
}

/// The first two are the pair, the third misses it.
fn same(converted: &[Result<Vec<u8>, String>], reduced: &[Result<Vec<u8>, String>]) -> Result<(), String> {
    for written in converted.iter().chain(reduced) {
        written.as_ref().map_err(String::clone)?;
    }
    ensure!(converted[0] == converted[1], "converted otherwise: {converted:02x?}");
    ensure!(reduced[0] == reduced[1], "reduced otherwise: {reduced:02x?}");
    ensure!(
        converted.get(2).is_none_or(|miss| *miss != converted[0]),
        "a near miss is converted alike: {converted:02x?}"
    );
    Ok(())
}
