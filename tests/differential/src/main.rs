//! Compares the engine's library with an independent implementation of documents 01 and 02.
//!
//! Run with `cargo run --release -- [seed] [calls]`; the seed may be hexadecimal, as in 0x1f.
//! The exit status is 1 if an answer differs, or if some number or size was met too seldom.

mod calls;
mod comparison;
mod document_01;
mod document_02;
mod examples;
mod inputs;
mod random;
mod tally;
mod unrounded;
mod whole_number;

use std::process::ExitCode;
use std::thread;

use comparison::Difference;
use inputs::Round;
use tally::Tally;

const SEED: u64 = 0x2008_0001;
const CALLS: u64 = 200_000;

/// The calls are dealt out in turn; the outcome does not depend on how many threads there are.
const THREADS: u64 = 2;

fn main() -> ExitCode {
    let mut arguments = std::env::args().skip(1);
    let seed = arguments.next().map_or(Some(SEED), |text| number(&text));
    let calls = arguments.next().map_or(Some(CALLS), |text| number(&text));
    let outcome = match (seed, calls, arguments.next()) {
        (Some(seed), Some(calls), None) => run(seed, calls),
        _ => Err("usage: differential [seed] [calls]".to_string()),
    };
    match outcome {
        Ok(()) => ExitCode::SUCCESS,
        Err(reason) => {
            println!("{reason}");
            ExitCode::FAILURE
        }
    }
}

/// A number in decimal, or in hexadecimal after 0x.
fn number(text: &str) -> Option<u64> {
    match text.strip_prefix("0x") {
        Some(digits) => u64::from_str_radix(digits, 16).ok(),
        None => text.parse().ok(),
    }
}

fn run(seed: u64, calls: u64) -> Result<(), String> {
    examples::check(examples::by_document_01)
        .map_err(|difference| format!("the independent implementation differs: {difference}"))?;
    examples::check(juniperprow::raw::reserve)
        .map_err(|difference| format!("the library differs: {difference}"))?;
    examples::check(examples::as_workbook(examples::by_document_02)).map_err(|difference| {
        format!("as a workbook, the independent implementation differs: {difference}")
    })?;
    examples::check(examples::as_workbook(juniperprow::raw::workbook_reserve))
        .map_err(|difference| format!("as a workbook, the library differs: {difference}"))?;
    println!("E1 to E12 are as document 01 has them, as workbooks too\n");

    let tally = compare_all(seed, calls)?;
    println!("{}", calls::printed(&tally));
    let shortfalls = tally.shortfalls(calls, &calls::demands());
    if !shortfalls.is_empty() {
        return Err(format!("met too seldom:\n{}", shortfalls.join("\n")));
    }
    println!("differential test: {calls} calls agree, seed {seed:#x}");
    Ok(())
}

/// Compares all calls, each thread its part; describes the first call that differs.
fn compare_all(seed: u64, calls: u64) -> Result<Tally, String> {
    let mut tally = Tally::default();
    let mut first_difference: Option<(u64, Difference)> = None;
    thread::scope(|scope| {
        let parts: Vec<_> = (0..THREADS)
            .map(|part| scope.spawn(move || compare_part(seed, calls, part)))
            .collect();
        for part in parts {
            let (counted, difference) = part.join().expect("a part of the calls panicked");
            tally.add(&counted);
            first_difference = [first_difference.take(), difference]
                .into_iter()
                .flatten()
                .min_by_key(|(number, _)| *number);
        }
    });
    match first_difference {
        None => Ok(tally),
        Some((number, difference)) => Err(described(&Round::numbered(seed, number), &difference)),
    }
}

/// Compares the calls whose number leaves the rest `part`, up to the first that differs.
fn compare_part(seed: u64, calls: u64, part: u64) -> (Tally, Option<(u64, Difference)>) {
    let mut tally = Tally::default();
    for number in (part..calls).step_by(THREADS as usize) {
        let round = Round::numbered(seed, number);
        if let Err(difference) = calls::compare(&round, &mut tally) {
            return (tally, Some((number, difference)));
        }
    }
    (tally, None)
}

fn described(round: &Round, difference: &Difference) -> String {
    let Round { seed, number, .. } = round;
    let Difference {
        subject,
        documents,
        library,
    } = difference;
    format!(
        "seed {seed:#x}, call {number} differs in: {subject}\n{round}  the documents answer {documents}\n  the library answers {library}"
    )
}
