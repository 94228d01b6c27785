//! Slips in the calls on tables.

mod fillings;
mod marks;
mod reports;
mod rows;
mod sides;
mod slips;
mod vectors;

use super::Slipping;
use crate::compare::tables::{after, ask, judge};
use crate::generate::given;
use crate::library::{Call, Question, Reply};
use crate::tally::Tally;
use fillings::FILLINGS;
use marks::MARKS;
use reports::REPORT;
use rows::{ROWS, ROW_REPORT};
use sides::SIDES;
use slips::{Slip, ANY, BUFFERS, CARDS, CHANGES, COPIES, WRITERS};
use vectors::{PLAIN, STEPPER, WITNESS};

fn slips(call: Call) -> Vec<(&'static str, Slip)> {
    match call {
        Call::Check => ANY.to_vec(),
        Call::WriteText | Call::WriteBinary => [ANY, WRITERS, COPIES].concat(),
        Call::WriteCards => [ANY, WRITERS, CARDS].concat(),
        Call::Convert | Call::Reduce | Call::Drop => [ANY, CHANGES].concat(),
        Call::Step => [ANY, BUFFERS, STEPPER].concat(),
        Call::StepPlain => [ANY, BUFFERS, STEPPER, PLAIN].concat(),
        Call::Witness => [ANY, FILLINGS].concat(),
        Call::Witness3 => [ANY, WITNESS].concat(),
        Call::Report => [ANY, REPORT].concat(),
        Call::Rows => [ANY, BUFFERS, ROWS].concat(),
        Call::Explain => [ANY, MARKS].concat(),
        Call::Rewire => [ANY, SIDES].concat(),
        Call::ReportRows => [ANY, ROW_REPORT].concat(),
    }
}

fn answers(slip: Slip, question: Question) -> Result<Reply, String> {
    let Question::Tables(call, before) = question else {
        return Err("only calls on tables are answered here".to_string());
    };
    let mut lent = after(call, &before);
    slip(&before, &mut lent);
    Ok(Reply::Tables(Box::new(lent)))
}

/// How many of the first cases must do to notice a slip, and how many must show none where there is none.
const CASES: u64 = 3000;
const WITHOUT: u64 = 500;

pub fn run(tally: &mut Tally, seed: u64) {
    for call in Call::ALL {
        let name = call.name();
        let none = notices(call, |_, _| {}, seed, WITHOUT).map_or(Ok(()), Err);
        tally.check(&format!("{name} without a slip"), none);
        for (told, slip) in slips(call) {
            let noticed = notices(call, slip, seed, CASES)
                .map(drop)
                .ok_or("not noticed".to_string());
            tally.check(&format!("{name} with the slip {told:?}"), noticed);
        }
    }
}

/// The first difference that a slip makes.
fn notices(call: Call, slip: Slip, seed: u64, cases: u64) -> Option<String> {
    let library = Slipping::new(|question| answers(slip, question));
    (0..cases).find_map(|number| {
        let lent = given::case(call, seed, number).lent;
        ask(&library, call, &lent);
        judge(&library, &after(call, &lent)).err()
    })
}
