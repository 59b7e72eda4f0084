//! How long each version takes, and how that grows with n.

use std::hint::black_box;

use crate::clock::{median, nanoseconds_of};
use crate::inputs::{Call, FAMILIES};
use crate::{Case, Version, SIZES, TRIANGLES, VERSIONS};

/// Rounds are short and many, and each goes through all cases, so that other work on the machine spoils few of them and hits every case alike.
pub const ROUNDS: usize = 301;
pub const CELLS_TIMED: usize = 65_536;

/// The nanoseconds that a triangle takes, by version.
type Times = [f64; VERSIONS.len()];

/// Times every case and prints the tables.
pub fn print(cases: &[Case]) {
    let times = median_times(cases);
    println!("\ntriangles a second, median of {ROUNDS} rounds over {TRIANGLES} triangles, and the time of the proved call over that of the faster dividing one (i128, u128) and over that of the prepared one");
    print!("{:>4} {:<18}", "n", "family");
    for (name, _) in VERSIONS {
        print!(" {name:>9}");
    }
    println!(" {:>9} {:>9}", "/dividing", "/prepared");
    for (case, times) in cases.iter().zip(&times) {
        print!("{:>4} {:<18}", case.n, case.family);
        for nanoseconds in times {
            print!(" {:>9.0}", 1e9 / nanoseconds);
        }
        let proved = proved(times);
        println!(
            " {:>9.2} {:>9.2}",
            proved / dividing(times),
            proved / prepared(times)
        );
    }
    print_growth(&times);
}

type TimeOf = fn(&Times) -> f64;

const GROWING: [(&str, TimeOf); 3] = [
    ("proved", proved),
    ("dividing", dividing),
    ("prepared", prepared),
];

/// The cases stand by size, then by family.
fn print_growth(times: &[Times]) {
    println!("\ngrowth with n: the time of a triangle over that of the size before, and nanoseconds for each projected cell");
    print!("{:<18} {:<8}", "family", "version");
    for pair in SIZES.windows(2) {
        print!(" {:>9}", format!("{}/{}", pair[1], pair[0]));
    }
    for n in SIZES {
        print!(" {:>9}", format!("n = {n}"));
    }
    println!();
    print!("{:<27}", "projected cells");
    print_growth_of(|size| cells(SIZES[size]));
    println!();
    for (place, family) in FAMILIES.iter().enumerate() {
        for (name, time) in GROWING {
            let of_size = |size: usize| time(&times[size * FAMILIES.len() + place]);
            print!("{:<18} {name:<8}", family.name);
            print_growth_of(of_size);
            print_by_cell(of_size);
        }
    }
}

fn print_growth_of(amount: impl Fn(usize) -> f64) {
    for size in 1..SIZES.len() {
        print!(" {:>9.2}", amount(size) / amount(size - 1));
    }
}

fn print_by_cell(time: impl Fn(usize) -> f64) {
    for (size, &n) in SIZES.iter().enumerate() {
        print!(" {:>9.1}", time(size) / cells(n));
    }
    println!();
}

// By their places among the versions.

fn proved(times: &Times) -> f64 {
    times[0]
}

/// Of the two that divide for every share, the faster.
fn dividing(times: &Times) -> f64 {
    times[1].min(times[2])
}

fn prepared(times: &Times) -> f64 {
    times[3]
}

fn cells(n: usize) -> f64 {
    (n * (n - 1) / 2) as f64
}

/// In each round another version goes first.
fn median_times(cases: &[Case]) -> Vec<Times> {
    let mut rounds = vec![[const { Vec::new() }; VERSIONS.len()]; cases.len()];
    for round in 0..ROUNDS {
        for (case, times) in cases.iter().zip(&mut rounds) {
            for turn in 0..VERSIONS.len() {
                let place = (round + turn) % VERSIONS.len();
                times[place].push(nanoseconds(&case.calls, VERSIONS[place].1));
            }
        }
    }
    rounds.into_iter().map(|times| times.map(median)).collect()
}

/// After a warm-up over the same triangles.
fn nanoseconds(calls: &[Call], version: Version) -> f64 {
    let times = CELLS_TIMED / (calls.len() * calls[0].future_length / 3) + 1;
    let mut future = vec![0; calls[0].future_length];
    let mut reserves = vec![0; calls[0].reserves_length];
    let mut run = |times| {
        for _ in 0..times {
            for call in calls {
                let verdict = version(&black_box(call).triangle(), &mut future, &mut reserves);
                black_box((verdict.is_ok(), &mut future, &mut reserves));
            }
        }
    };
    run(1);
    nanoseconds_of(|| run(times)) / (times * calls.len()) as f64
}
