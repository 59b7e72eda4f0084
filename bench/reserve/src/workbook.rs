//! The call on a workbook beside the call that fills both answer lists, on the same triangles: first that they answer alike, then how long each takes.

use std::hint::black_box;

use juniperprow::{
    reserve_into, reserve_pairs_length, workbook_reserve_into, Workbook, BLANK, NUMBER, ONE_UNIT,
};

use crate::clock::{median, nanoseconds_of};
use crate::inputs::Call;
use crate::times::{CELLS_TIMED, ROUNDS};
use crate::{answer, Case, TRIANGLES};

const SIZES: [usize; 2] = [10, 32];

/// The cells of a triangle, blank where it is missing; payments and adjustments have the same kinds.
struct Cells {
    kinds: Vec<u8>,
    payments: Vec<f64>,
    adjustments: Vec<f64>,
}

/// A call and the same triangle as cells.
type Paired<'a> = (&'a Call, Cells);

/// The triangles of a case, also as cells.
pub struct WorkbookCase<'a> {
    case: &'a Case,
    calls: Vec<Paired<'a>>,
}

/// The cases of the sizes that are timed, where both calls answer alike.
pub fn compared(cases: &[Case]) -> Result<Vec<WorkbookCase<'_>>, String> {
    let mut compared = vec![];
    for case in cases.iter().filter(|case| SIZES.contains(&case.n)) {
        let paired = |call| (call, Cells::of(case.n, call));
        let calls: Vec<Paired> = case.calls.iter().map(paired).collect();
        calls
            .iter()
            .try_for_each(|(call, cells)| compare(call, cells))?;
        compared.push(WorkbookCase { case, calls });
    }
    let triangles = TRIANGLES * compared.len();
    println!("same answers at {triangles} of them as workbooks");
    Ok(compared)
}

impl Cells {
    fn of(n: usize, call: &Call) -> Cells {
        let diagonals = (1..=n).flat_map(|i| (1..=n + 1 - i).map(move |k| (i + k) as i64));
        let kind = |diagonal| if diagonal <= call.cut { BLANK } else { NUMBER };
        let floats = |amounts: &[i64]| amounts.iter().map(|&amount| amount as f64).collect();
        Cells {
            kinds: diagonals.map(kind).collect(),
            payments: floats(&call.payments),
            adjustments: floats(&call.adjustments),
        }
    }

    fn workbook<'a>(&'a self, call: &'a Call) -> Workbook<'a> {
        Workbook {
            years: call.years,
            cut: call.cut,
            payment_kinds: &self.kinds,
            payments: &self.payments,
            adjustment_kinds: &self.kinds,
            adjustments: &self.adjustments,
            weights: &call.weights,
            openings: &call.openings,
        }
    }
}

/// Both calls accept, with the same future list, and each pair is its reserve.
fn compare(call: &Call, cells: &Cells) -> Result<(), String> {
    let (verdict, future, reserves) = answer(call, reserve_into);
    let split = |&reserve: &i64| [reserve.div_euclid(ONE_UNIT), reserve.rem_euclid(ONE_UNIT)];
    let pairs: Vec<i64> = reserves.iter().flat_map(split).collect();
    let expected = (
        verdict,
        future,
        bits(pairs.iter().map(|&number| number as f64)),
    );

    // No number that a call would write.
    let mut future = vec![i64::MIN; call.future_length];
    let mut pairs = vec![f64::NAN; reserve_pairs_length(call.years as usize)];
    let verdict = workbook_reserve_into(&cells.workbook(call), &mut future, &mut pairs);
    let answered = (verdict, future, bits(pairs));
    if answered != expected {
        return Err(format!(
            "at {call:?} the filling call leads to {expected:x?}, its workbook to {answered:x?}"
        ));
    }
    Ok(())
}

fn bits(numbers: impl IntoIterator<Item = f64>) -> Vec<u64> {
    numbers.into_iter().map(f64::to_bits).collect()
}

/// Times both calls and prints the table.
pub fn print(cases: &[WorkbookCase]) {
    println!("\nthe call on a workbook beside the filling call on the same triangle: triangles a second, median of {ROUNDS} rounds over {TRIANGLES} triangles, and the time of the one over that of the other");
    println!(
        "{:>4} {:<18} {:>9} {:>9} {:>9}",
        "n", "family", "filling", "workbook", "/filling"
    );
    for (case, [filling, workbook]) in cases.iter().zip(median_times(cases)) {
        println!(
            "{:>4} {:<18} {:>9.0} {:>9.0} {:>9.2}",
            case.case.n,
            case.case.family,
            1e9 / filling,
            1e9 / workbook,
            workbook / filling
        );
    }
}

/// The nanoseconds of the filling call and of the call on a workbook. In each round the other one goes first.
fn median_times(cases: &[WorkbookCase]) -> Vec<[f64; 2]> {
    let mut rounds = vec![[const { Vec::new() }; 2]; cases.len()];
    for round in 0..ROUNDS {
        for (case, times) in cases.iter().zip(&mut rounds) {
            for place in [round % 2, (round + 1) % 2] {
                times[place].push(match place {
                    0 => filling_nanoseconds(case),
                    _ => workbook_nanoseconds(case),
                });
            }
        }
    }
    rounds.into_iter().map(|times| times.map(median)).collect()
}

fn filling_nanoseconds(case: &WorkbookCase) -> f64 {
    let mut future = vec![0; case.calls[0].0.future_length];
    let mut reserves = vec![0; case.calls[0].0.reserves_length];
    nanoseconds(case, |(call, _)| {
        let verdict = reserve_into(&call.triangle(), &mut future, &mut reserves);
        black_box((verdict.is_ok(), &mut future, &mut reserves));
    })
}

fn workbook_nanoseconds(case: &WorkbookCase) -> f64 {
    let mut future = vec![0; case.calls[0].0.future_length];
    let mut pairs = vec![0.0; reserve_pairs_length(case.case.n)];
    nanoseconds(case, |(call, cells)| {
        let verdict = workbook_reserve_into(&cells.workbook(call), &mut future, &mut pairs);
        black_box((verdict.is_ok(), &mut future, &mut pairs));
    })
}

/// The nanoseconds of a call, after a warm-up over the same triangles.
fn nanoseconds(case: &WorkbookCase, mut make: impl FnMut(&Paired)) -> f64 {
    let calls = &case.calls;
    let times = CELLS_TIMED / (calls.len() * calls[0].0.future_length / 3) + 1;
    let mut run = |times| {
        for _ in 0..times {
            for paired in calls {
                make(black_box(paired));
            }
        }
    };
    run(1);
    nanoseconds_of(|| run(times)) / (times * calls.len()) as f64
}
