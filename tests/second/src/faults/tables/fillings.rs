//! What the witness question may get wrong.

use super::slips::Slip;
use crate::aiger::fillings::{self, Verdict, MOST_X, NO, UNDECIDED, YES};
use crate::aiger::{step, Circuit};
use crate::compare::tables::{circuit, outcome};
use crate::coverage::vectors::list;
use crate::library::Lent;

pub const FILLINGS: &[(&str, Slip)] = &[
    ("in three values", |before, after| {
        said(after, |verdict| {
            let circuit = circuit(before);
            let yes = step::witness(&circuit, list(before, &circuit).into_iter());
            verdict.says = if yes { YES } else { NO };
        });
    }),
    ("the failing one not counted", |_, after| {
        said(after, |verdict| verdict.tried -= u64::from(verdict.says == NO));
    }),
    ("undecided told as no", |_, after| {
        said(after, |verdict| {
            verdict.says = if verdict.says == UNDECIDED { NO } else { verdict.says };
        });
    }),
    ("one more tried than allowed", |before, after| {
        said(after, |verdict| {
            *verdict = tried(before, before.numbers[1].saturating_add(1), |k, _| k)
        });
    }),
    ("no yes at the last allowed", |before, after| {
        said(after, |verdict| {
            if verdict.says == YES && verdict.tried == before.numbers[1] {
                verdict.says = UNDECIDED;
            }
        });
    }),
    ("from filling 1", |before, after| {
        said(after, |verdict| {
            *verdict = tried(before, before.numbers[1], |k, [start, list]| {
                (k + 1) % (1 << (start + list))
            });
        });
    }),
    ("the last x counts least", |before, after| {
        said(after, |verdict| {
            *verdict = tried(before, before.numbers[1], |k, [start, list]| {
                (0..start + list).fold(0, |turned, i| turned << 1 | (k >> i & 1))
            });
        });
    }),
    ("x of the first state last", |before, after| {
        said(after, |verdict| {
            *verdict = tried(before, before.numbers[1], |k, [start, list]| {
                k >> list | (k % (1 << list)) << start
            });
        });
    }),
    ("a constraint at its own step alone", |before, after| {
        said(after, |verdict| {
            let shows = |circuit: &Circuit, number: usize, values: &[u8]| {
                let (start, list) = values.split_at(circuit.latches.len());
                let i = circuit.inputs.len();
                let vectors = (0..number).map(|k| &list[k * i..(k + 1) * i]);
                let mut steps = step::run_from(circuit, start.to_vec(), vectors);
                steps.any(|(_, step)| step.shows() && step.keeps_constraints())
            };
            *verdict = tried_by(before, before.numbers[1], |k, _| k, shows);
        });
    }),
    ("20 x refused", |before, after| {
        if outcome(after).is_ok() && unknown(before).iter().sum::<usize>() == MOST_X {
            after.answer.lent_mut().copy_from_slice(&[20, 20, 0, 0]);
        }
    }),
    ("20 before 12", |before, after| {
        let late = outcome(after).is_err_and(|refusal| refusal.number == 12);
        let unknown = before.bytes[0].lent().iter().filter(|&&value| value == b'x').count();
        if late && unknown > MOST_X {
            after.answer.lent_mut().copy_from_slice(&[20, unknown as u64, 0, 0]);
        }
    }),
    ("list filled", |before, after| {
        let values = fillings::filled(before.bytes[0].lent(), 0);
        after.bytes[0].lent_mut().copy_from_slice(&values);
    }),
];

/// Spoils the verdict of an accepted question.
fn said(after: &mut Lent, spoil: impl Fn(&mut Verdict)) {
    if outcome(after).is_ok() {
        let answer = after.answer.lent_mut();
        let mut verdict = Verdict {
            says: answer[2],
            tried: answer[3],
        };
        spoil(&mut verdict);
        answer[2..].copy_from_slice(&[verdict.says, verdict.tried]);
    }
}

/// The x of the first state and of the list.
fn unknown(before: &Lent) -> [usize; 2] {
    [&step::start(&circuit(before)), before.bytes[0].lent()].map(fillings::unknown)
}

/// The fillings in another order, of so many x in the first state and in the list.
fn tried(before: &Lent, allowance: u64, order: impl Fn(u64, [usize; 2]) -> u64) -> Verdict {
    tried_by(before, allowance, order, fillings::shows)
}

fn tried_by(
    before: &Lent,
    allowance: u64,
    order: impl Fn(u64, [usize; 2]) -> u64,
    shows: impl Fn(&Circuit, usize, &[u8]) -> bool,
) -> Verdict {
    let circuit = circuit(before);
    let unknown = unknown(before);
    let list = list(before, &circuit);
    let values = fillings::values(&circuit, &list);
    let all = 1 << unknown.iter().sum::<usize>();
    let most = all.min(allowance);
    let fails = |k: u64| !shows(&circuit, list.len(), &fillings::filled(&values, order(k, unknown)));
    match (0..most).find(|&k| fails(k)) {
        Some(k) => Verdict { says: NO, tried: k + 1 },
        None if most == all => Verdict { says: YES, tried: all },
        None => Verdict {
            says: UNDECIDED,
            tried: most,
        },
    }
}
