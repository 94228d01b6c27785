//! Which cases a call has: they take turns, so that each refusal comes at each of its places equally often.

use crate::aiger::Refusal;
use crate::library::{Call, Told};
use crate::random::Random;

/// What is to be wrong with a case.
#[derive(Clone, Copy, PartialEq, Eq)]
pub enum Turn {
    Nothing,
    /// The tables, so that they are refused in one way.
    Tables(Aim),
    /// What the call is given beside them.
    Beside(Aim),
    /// The tables in two ways.
    Twice,
    /// Some words of the tables, or only the order of a circuit made for text.
    Edited,
    /// Counts and tables have nothing to do with each other.
    Unrelated,
}

/// A refusal, and its place or what else it is told for.
#[derive(Clone, Copy, PartialEq, Eq)]
pub struct Aim {
    pub number: u64,
    pub way: u64,
}

/// A tail, a reset, a bad state or a constraint: the ways to 19.
pub const CANNOT_HOLD: [u64; 4] = [0, 1, 2, 3];

/// The constant, an input or latch, or a gate: the ways to 23.
pub const WRONG_VALUES: [u64; 3] = [0, 1, 2];

/// Just too many or too large, or far more: the ways to 20, 22 and 24.
pub const TOO_MANY: [u64; 2] = [0, 1];

fn ways(told: &Told) -> &'static [u64] {
    match told {
        // A list may be wrong in its number, its length and its bytes.
        (12, &[2]) => &[2, 2, 2],
        (19, _) => &CANNOT_HOLD,
        (20 | 22 | 24, _) => &TOO_MANY,
        (23, _) => &WRONG_VALUES,
        (_, &[]) => &[0],
        (_, places) => places,
    }
}

fn aims(told: &[Told]) -> Vec<Aim> {
    let aims = told.iter().flat_map(|told| {
        let number = told.0;
        ways(told).iter().map(move |&way| Aim { number, way })
    });
    aims.collect()
}

/// The turns of a call, one after another: about a third of its cases are whole.
pub fn round(call: Call) -> Vec<Turn> {
    let tables = aims(&call.told_of_tables()).into_iter().map(Turn::Tables);
    let beside = aims(call.told_beside()).into_iter().map(Turn::Beside);
    let mut round: Vec<Turn> = tables.chain(beside).collect();
    let refused = round.len();
    round.extend(vec![Turn::Nothing; refused / 2 + 2]);
    let others = [Turn::Twice, Turn::Edited, Turn::Unrelated].into_iter().cycle();
    round.extend(others.take(refused / 8));
    round
}

impl Turn {
    /// Whether the tables are left whole, in binary order if the call asks for that.
    pub fn spares_tables(self) -> bool {
        matches!(self, Turn::Nothing | Turn::Beside(_))
    }

    /// Whether what is told is what was to be wrong.
    pub fn is_met(self, call: Call, promise: Option<Result<(), Refusal>>) -> bool {
        match (self, promise) {
            (Turn::Nothing, promise) => promise == Some(Ok(())),
            (Turn::Tables(aim), Some(Err(refusal))) => aim.is_met(&call.told_of_tables(), &refusal),
            (Turn::Beside(aim), Some(Err(refusal))) => aim.is_met(call.told_beside(), &refusal),
            (Turn::Tables(_) | Turn::Beside(_), _) => false,
            _ => true,
        }
    }

    /// What is to be wrong beside the tables. If these are wrong, that may be so too, since they come first.
    pub fn beside(self, call: Call) -> Beside {
        let order = call.told_beside();
        match self {
            Turn::Nothing => Beside::Nothing,
            Turn::Beside(aim) => Beside::Aimed(aim, order),
            _ => Beside::Anything,
        }
    }
}

impl Aim {
    fn is_met(self, told: &[Told], refusal: &Refusal) -> bool {
        let placed = |&(number, places): &Told| number == self.number && places.contains(&self.way);
        refusal.number == self.number && (refusal.place == self.way || !told.iter().any(placed))
    }
}

#[derive(Clone, Copy)]
pub enum Beside {
    Nothing,
    /// What is judged after the aim is mostly wrong too; the order is the call's.
    Aimed(Aim, &'static [Told]),
    Anything,
}

impl Beside {
    /// Whether something is to be refused with this number; if so, in which of the ways.
    pub fn way(self, random: &mut Random, number: u64, ways: &[u64]) -> Option<u64> {
        let wanted = match self {
            Beside::Nothing => false,
            Beside::Aimed(aim, _) if aim.number == number => return Some(aim.way),
            Beside::Aimed(aim, order) => comes_after(order, number, aim.number) && !random.once_in(3),
            Beside::Anything => random.once_in(4),
        };
        wanted.then(|| *random.pick(ways))
    }

    pub fn wants(self, random: &mut Random, number: u64) -> bool {
        self.way(random, number, &[0]).is_some()
    }
}

fn comes_after(order: &[Told], number: u64, other: u64) -> bool {
    let at = |number: u64| order.iter().position(|told| told.0 == number);
    at(number) > at(other)
}
