//! The proved call that fills both answer lists beside the same call in plain Rust: first that all answer alike, then how long each takes.
//! After that the proved call on a workbook beside the filling one.

#[path = "../../common/clock.rs"]
mod clock;
mod inputs;
mod plain;
#[path = "../../common/random.rs"]
mod random;
#[path = "../../common/ratios.rs"]
mod ratios;
mod times;
mod workbook;

use std::process::ExitCode;

use inputs::{Call, Family, FAMILIES};
use juniperprow::{Refusal, Triangle};
use random::Random;
use ratios::{ByI128, ByU128, Prepared};

const SEED: u64 = 20_080_001;
const SIZES: [usize; 3] = [10, 20, 32];
const TRIANGLES: usize = 128;
const CHANGED_CALLS: usize = 20_000;

type Version = fn(&Triangle, &mut [i64], &mut [i64]) -> Result<(), Refusal>;

/// The proved one first, then those that divide for every share.
const VERSIONS: [(&str, Version); 4] = [
    ("proved", juniperprow::reserve_into),
    ("i128", plain::reserve_into::<ByI128>),
    ("u128", plain::reserve_into::<ByU128>),
    ("prepared", plain::reserve_into::<Prepared>),
];

fn main() -> ExitCode {
    let mut random = Random(SEED);
    println!("seed {SEED}");
    match compare_changed_calls(&mut random).and_then(|()| compare_and_time(&mut random)) {
        Ok(()) => ExitCode::SUCCESS,
        Err(difference) => {
            println!("FAILED: {difference}");
            ExitCode::FAILURE
        }
    }
}

/// The triangles of one size and family.
struct Case {
    n: usize,
    family: &'static str,
    calls: Vec<Call>,
}

/// All triangles are compared before any is timed.
fn compare_and_time(random: &mut Random) -> Result<(), String> {
    let mut cases = Vec::new();
    for n in SIZES {
        for family in &FAMILIES {
            let calls: Vec<Call> = (0..TRIANGLES)
                .map(|_| accepted(n, family, random))
                .collect();
            calls.iter().try_for_each(|call| compare(call).map(drop))?;
            let family = family.name;
            cases.push(Case { n, family, calls });
        }
    }
    let compared = TRIANGLES * cases.len();
    println!("same answers at {compared} accepted triangles, {TRIANGLES} of each size and family");
    let workbooks = workbook::compared(&cases)?;
    times::print(&cases);
    workbook::print(&workbooks);
    Ok(())
}

/// A triangle of the family that the plain version accepts.
fn accepted(n: usize, family: &Family, random: &mut Random) -> Call {
    loop {
        let call = (family.call)(n, random);
        if answer(&call, plain::reserve_into::<ByI128>).0.is_ok() {
            return call;
        }
    }
}

fn compare_changed_calls(random: &mut Random) -> Result<(), String> {
    let mut numbers = [0; 10];
    for _ in 0..CHANGED_CALLS {
        let verdict = compare(&inputs::changed_call(random))?;
        numbers[verdict.map_or_else(|refusal| refusal.question.number() as usize, |()| 0)] += 1;
    }
    let [accepted, refused @ ..] = numbers;
    println!("same answers at {CHANGED_CALLS} changed calls: {accepted} accepted, refused by questions 1 to 9: {refused:?}");
    Ok(())
}

type Answer = (Result<(), Refusal>, Vec<i64>, Vec<i64>);

/// The verdict that all versions answer with the same lists, or what differs.
fn compare(call: &Call) -> Result<Result<(), Refusal>, String> {
    let [(_, proved), others @ ..] = VERSIONS;
    let expected = answer(call, proved);
    for (name, version) in others {
        let other = answer(call, version);
        if other != expected {
            return Err(format!(
                "at {call:?} the proved call answers {expected:?}, {name} {other:?}"
            ));
        }
    }
    Ok(expected.0)
}

fn answer(call: &Call, version: Version) -> Answer {
    // No number that a call would write.
    let mut future = vec![i64::MIN; call.future_length];
    let mut reserves = vec![i64::MIN; call.reserves_length];
    let verdict = version(&call.triangle(), &mut future, &mut reserves);
    (verdict, future, reserves)
}
