//! The proved shares of a list of outstandings by one ratio, beside three versions that an engineer would write in Rust: first that all answer alike, then how long each takes.

#[path = "common/clock.rs"]
mod clock;
#[path = "common/random.rs"]
mod random;
#[path = "common/ratios.rs"]
mod ratios;

use std::hint::black_box;
use std::process::exit;

use clock::{median, nanoseconds_of};
use random::Random;
use ratios::{ByI128, ByU128, Prepared, Ratio, GREATEST_FIGURE};

// As in crates/share_benchmark.
#[link(name = "share_benchmark", kind = "static")]
extern "C" {
    /// Puts in the place of each outstanding its share of part / exposure, rounded half up, or why there is none, and answers 1.
    /// Where the part or the exposure is outside its limits it answers 0 and leaves the list.
    fn juniperprow_shares(part: i64, exposure: i64, figures: *mut i64, count: usize) -> i64;

    /// One share by the numbers of a prepared ratio, or why there is none. Asks for an outstanding and such a ratio.
    fn juniperprow_share(
        outstanding: i64,
        quotient: i64,
        remainder: u64,
        fraction: u64,
        reach: u64,
        exposure: u64,
    ) -> i64;

    /// u × v / 2^64.
    fn juniperprow_high_product(u: u64, v: u64) -> u64;

    /// u × v % 2^64.
    fn juniperprow_low_product(u: u64, v: u64) -> u64;
}

const GREATEST_SUM: i64 = 3_100_000_000_000;
const GREATEST_SUM_OF_WEIGHTS_TO_2: i64 = 62_000_000_000;

// In the place of a share.
const TOO_LARGE: i64 = i64::MAX;
const OUTSIDE: i64 = i64::MIN;

// ---- The versions

/// Of a part, an exposure and a list, as the proved call.
type Version = fn(i64, i64, &mut [i64]) -> i64;

/// The proved one first.
const VERSIONS: [(&str, Version); 4] = [
    ("proved", proved),
    ("i128", shares::<ByI128>),
    ("u128", shares::<ByU128>),
    ("prepared", shares::<Prepared>),
];

fn proved(part: i64, exposure: i64, figures: &mut [i64]) -> i64 {
    unsafe { juniperprow_shares(part, exposure, figures.as_mut_ptr(), figures.len()) }
}

fn shares<R: Ratio>(part: i64, exposure: i64, figures: &mut [i64]) -> i64 {
    if !ratio_in_range(part, exposure) {
        return 0;
    }
    let [ratio] = R::ready([part], exposure);
    for figure in figures {
        *figure = if (0..=ratio.reach()).contains(figure) {
            ratio.share(*figure).unwrap_or(TOO_LARGE)
        } else if outstanding_in_range(*figure) {
            TOO_LARGE
        } else {
            OUTSIDE
        };
    }
    1
}

// A share by a prepared ratio; each is a call of its own, as the proved one is.

#[inline(never)]
fn one_share<R: Ratio>(outstanding: i64, ratio: &R) -> i64 {
    if outstanding > ratio.reach() {
        return TOO_LARGE;
    }
    ratio.share(outstanding).unwrap_or(TOO_LARGE)
}

#[inline(always)]
fn one_proved(outstanding: i64, ratio: &Prepared) -> i64 {
    unsafe {
        juniperprow_share(
            outstanding,
            ratio.quotient,
            ratio.remainder,
            ratio.fraction,
            ratio.reach as u64,
            ratio.exposure,
        )
    }
}

#[inline(always)]
fn ratio_in_range(part: i64, exposure: i64) -> bool {
    (-GREATEST_SUM..=GREATEST_SUM).contains(&part) && (1..=GREATEST_SUM).contains(&exposure)
}

#[inline(always)]
fn outstanding_in_range(outstanding: i64) -> bool {
    (0..=GREATEST_FIGURE).contains(&outstanding)
}

// ---- Inputs

const SEED: u64 = 88_172_645_463_325_252;

/// Outstandings whose shares by one ratio are asked.
#[derive(Debug)]
struct List {
    part: i64,
    exposure: i64,
    outstandings: Vec<i64>,
}

impl List {
    fn of(part: i64, exposure: i64, length: usize, mut outstanding: impl FnMut() -> i64) -> List {
        List {
            part,
            exposure,
            outstandings: (0..length).map(|_| outstanding()).collect(),
        }
    }
}

/// Makes a list of this length.
type Kind = fn(usize, &mut Random) -> List;

/// From 1 on, with all orders of magnitude alike.
fn any_order(most: i64, random: &mut Random) -> i64 {
    let exponent = random.next() as f64 / u64::MAX as f64;
    ((most as f64).powf(exponent) as i64).clamp(1, most)
}

/// From 0 on, with all counts of bits alike.
fn any_bits(random: &mut Random) -> u64 {
    random.next() >> random.place(64)
}

fn either_sign(size: i64, random: &mut Random) -> i64 {
    random.pick(&[size, -size])
}

fn beside(number: i128, random: &mut Random) -> i64 {
    let moved = number + i128::from(random.uniform(-2, 2));
    moved.clamp(0, i128::from(GREATEST_FIGURE)) as i64
}

/// Shares of about the greatest figure, on both sides of it. In one list of eight the ratio is 3/2, so that a share may be half a millionth from it.
fn at_limit(length: usize, random: &mut Random) -> List {
    let (size, exposure) = if random.uniform(1, 8) == 1 {
        let third = any_order(GREATEST_SUM / 3, random);
        (3 * third, 2 * third)
    } else {
        let size = any_order(GREATEST_SUM, random);
        (size, any_order(size, random))
    };
    let limit = i128::from(GREATEST_FIGURE) * i128::from(exposure) / i128::from(size);
    let part = either_sign(size, random);
    List::of(part, exposure, length, || beside(limit, random))
}

/// Shares that are an odd number of halves.
fn exact_half(length: usize, random: &mut Random) -> List {
    let common_with_outstanding = any_order(GREATEST_SUM / 2, random);
    let common_with_part = any_order(GREATEST_SUM / 2 / common_with_outstanding, random);
    let odd_of_part = (any_order(GREATEST_SUM / common_with_part, random) - 1) | 1;
    let part = either_sign(common_with_part * odd_of_part, random);
    let exposure = 2 * common_with_outstanding * common_with_part;
    List::of(part, exposure, length, || {
        let most = GREATEST_FIGURE / common_with_outstanding;
        common_with_outstanding * ((any_order(most, random) - 1) | 1)
    })
}

fn of_any_order(length: usize, random: &mut Random) -> List {
    let size = any_order(GREATEST_SUM, random);
    let exposure = any_order(GREATEST_SUM, random);
    let part = either_sign(size, random);
    List::of(part, exposure, length, || {
        any_order(GREATEST_FIGURE, random)
    })
}

fn in_range(length: usize, random: &mut Random) -> List {
    let part = random.uniform(-GREATEST_SUM, GREATEST_SUM);
    let exposure = random.uniform(1, GREATEST_SUM);
    List::of(part, exposure, length, || {
        random.uniform(0, GREATEST_FIGURE)
    })
}

/// Of any 64 bits and both signs, so that much is outside the limits.
fn of_any_bits(length: usize, random: &mut Random) -> List {
    let part = either_sign((any_bits(random) >> 1) as i64, random);
    let exposure = either_sign((any_bits(random) >> 1) as i64, random);
    List::of(part, exposure, length, || any_bits(random) as i64)
}

/// Quotients whose product with an outstanding passes 64 bits: about where it does, and where its lower 64 bits alone are small again.
fn at_reach(length: usize, random: &mut Random) -> List {
    let around_900 = random.uniform(898, 902);
    let around_920 = random.uniform(918, 922);
    let larger = any_order(GREATEST_SUM - 1_000, random) + 900;
    let quotient = random.pick(&[around_900, around_920, larger]);
    let exposure = any_order(GREATEST_SUM / quotient, random);
    let size = quotient * exposure + any_remainder(exposure, random);
    let part = either_sign(size.min(GREATEST_SUM), random);
    let above = i128::from(part.div_euclid(exposure).abs() + 1);
    List::of(part, exposure, length, || {
        let small_again = i128::from(random.uniform(1, 8)) << 64;
        let product = random.pick(&[9_200_000_000_000_000_000, small_again]);
        beside(product / above, random)
    })
}

/// The first and the last remainders, and shares at whole numbers and halves, and beside them.
fn at_remainder(length: usize, random: &mut Random) -> List {
    let exposure = any_order(GREATEST_SUM, random);
    let quotient = any_order(GREATEST_SUM / exposure, random) - 1;
    let size = quotient * exposure + any_remainder(exposure, random);
    let part = either_sign(size, random);
    List::of(part, exposure, length, || {
        let whole = exposure * (any_order(GREATEST_FIGURE / exposure, random) - 1);
        let rest = random.pick(&[0, exposure / 2]);
        beside(i128::from(whole + rest), random)
    })
}

fn any_remainder(exposure: i64, random: &mut Random) -> i64 {
    let any = random.uniform(0, exposure - 1);
    random.pick(&[0, 1 % exposure, exposure - 1, any])
}

/// Exposures where 2^62 / exposure steps to another whole number, with remainders where a digit of the fraction does.
fn at_digit(length: usize, random: &mut Random) -> List {
    let greatest_exposure = i128::from(GREATEST_SUM);
    let reciprocal = i128::from(any_order(1 << 62, random));
    let exposure = i128::from(beside((1 << 62) / reciprocal, random)).clamp(1, greatest_exposure);
    let bits = random.pick(&[20, 40, 60]);
    let digits = i128::from(random.uniform(0, (1 << bits) - 1));
    let part = beside((digits * exposure) >> bits, random).min(GREATEST_SUM);
    let part = either_sign(part, random);
    List::of(part, exposure as i64, length, || {
        any_order(GREATEST_FIGURE, random)
    })
}

/// Parts up to the exposure, as a development year has them.
fn with_weights(least: i64, most: i64, length: usize, random: &mut Random) -> List {
    let exposure = random.uniform(least, most);
    let part = random.uniform(-exposure, exposure);
    List::of(part, exposure, length, || {
        any_order(GREATEST_FIGURE / 10, random)
    })
}

fn with_weights_to_2(length: usize, random: &mut Random) -> List {
    with_weights(1, GREATEST_SUM_OF_WEIGHTS_TO_2, length, random)
}

fn with_weights_to_100(length: usize, random: &mut Random) -> List {
    with_weights(100_000_000_000, GREATEST_SUM, length, random)
}

/// Every triple of the ends of 64 bits, of the limits, of the bases of the digits and of the reciprocal, of the first quotients with a reach, and of what lies beside them.
fn edges() -> Vec<List> {
    let limits = [
        0,
        900,
        1 << 20,
        (1 << 62) / GREATEST_SUM,
        1 << 31,
        1 << 40,
        1 << 42,
        GREATEST_SUM,
        GREATEST_FIGURE,
        1 << 62,
    ];
    let mut ends = vec![i64::MIN, i64::MIN + 1, i64::MAX - 1, i64::MAX];
    for limit in limits {
        for beside in [-1, 0, 1] {
            ends.push(limit + beside);
            ends.push(-limit + beside);
        }
    }
    let mut lists = Vec::new();
    for &part in &ends {
        for &exposure in &ends {
            lists.push(List {
                part,
                exposure,
                outstandings: ends.clone(),
            });
        }
    }
    lists
}

// ---- The same answers

#[derive(Default)]
struct Counts {
    inputs: usize,
    rounded: usize,
    too_large: usize,
    outside: usize,
    positive_halves: usize,
    negative_halves: usize,
}

impl Counts {
    /// Compares all versions with the definition.
    fn compare(&mut self, list: &List) {
        let expected = self.defined(list);
        self.compare_one_by_one(list, &expected);
        for (name, version) in VERSIONS {
            let mut figures = list.outstandings.clone();
            let answer = (version(list.part, list.exposure, &mut figures), figures);
            if answer != expected {
                fail(&format!(
                    "at {list:?} the definition has {expected:?}, {name} answers {answer:?}"
                ));
            }
        }
    }

    /// The same shares by the call for one, where it may be made.
    fn compare_one_by_one(&self, list: &List, expected: &(i64, Vec<i64>)) {
        if expected.0 == 0 {
            return;
        }
        let [ratio] = Prepared::ready([list.part], list.exposure);
        for (&outstanding, &share) in list.outstandings.iter().zip(&expected.1) {
            if share != OUTSIDE && one_proved(outstanding, &ratio) != share {
                fail(&format!("at {outstanding} by {list:?} alone"));
            }
        }
    }

    /// What the call has to answer, and the list that it has to leave.
    fn defined(&mut self, list: &List) -> (i64, Vec<i64>) {
        let count = list.outstandings.len();
        self.inputs += count;
        if !ratio_in_range(list.part, list.exposure) {
            self.outside += count;
            return (0, list.outstandings.clone());
        }
        let share = |&outstanding| self.defined_share(outstanding, list.part, list.exposure);
        (1, list.outstandings.iter().map(share).collect())
    }

    /// By a ratio within its limits.
    fn defined_share(&mut self, outstanding: i64, part: i64, exposure: i64) -> i64 {
        if !outstanding_in_range(outstanding) {
            self.outside += 1;
            return OUTSIDE;
        }
        let dividend = 2 * i128::from(outstanding) * i128::from(part) + i128::from(exposure);
        let divisor = 2 * i128::from(exposure);
        let share = dividend.div_euclid(divisor);
        if share * divisor == dividend {
            self.positive_halves += usize::from(part > 0);
            self.negative_halves += usize::from(part < 0);
        }
        if share.abs() > i128::from(GREATEST_FIGURE) {
            self.too_large += 1;
            return TOO_LARGE;
        }
        self.rounded += 1;
        share as i64
    }
}

fn fail(difference: &str) -> ! {
    println!("FAILED {difference}");
    exit(1);
}

fn compare_shares(random: &mut Random) {
    const EACH: usize = 5_000_000;
    const LONGEST: usize = 16;
    let kinds: [Kind; 8] = [
        at_limit,
        exact_half,
        of_any_order,
        in_range,
        of_any_bits,
        at_reach,
        at_remainder,
        at_digit,
    ];
    let mut counts = Counts::default();
    for (kind, compared) in kinds.iter().zip(1..) {
        while counts.inputs < compared * EACH {
            let length = random.place(LONGEST + 1);
            counts.compare(&kind(length, random));
        }
    }
    edges().iter().for_each(|list| counts.compare(list));
    let Counts {
        inputs,
        rounded,
        too_large,
        outside,
        positive_halves,
        negative_halves,
    } = counts;
    println!("same answers at {inputs} inputs: {rounded} rounded, {too_large} too large, {outside} outside the limits");
    println!("exact halves among them: {positive_halves} positive, {negative_halves} negative");
}

// ---- Both halves of a product

fn compare_products(random: &mut Random) {
    const PAIRS: usize = 10_000_000;
    for _ in 0..PAIRS {
        compare_product(any_bits(random), any_bits(random));
    }
    let ends: Vec<u64> = (0..64)
        .flat_map(|bits| [-1, 0, 1].map(|beside| (1u64 << bits).wrapping_add_signed(beside)))
        .collect();
    for &u in &ends {
        ends.iter().for_each(|&v| compare_product(u, v));
    }
    let pairs = PAIRS + ends.len() * ends.len();
    println!("both halves of a product are those of u128 at {pairs} pairs of numbers");
}

fn compare_product(u: u64, v: u64) {
    let (high, low) = unsafe {
        (
            juniperprow_high_product(u, v),
            juniperprow_low_product(u, v),
        )
    };
    let product = u128::from(u) * u128::from(v);
    if (high, low) != ((product >> 64) as u64, product as u64) {
        fail(&format!("at {u} × {v}: halves {high} and {low}"));
    }
}

// ---- Times

const ROUNDS: usize = 51;
const FIGURES: usize = 65_536;

/// In the longer lists, what it takes to prepare a ratio is spread over many shares.
const LENGTHS: [usize; 2] = [1_024, 1];

/// One share after another, each by a prepared ratio of its own: the time of a share by version, in the order of `VERSIONS`.
fn time_one_by_one(name: &str, kind: Kind, random: &mut Random) {
    let mut times = [const { Vec::new() }; VERSIONS.len()];
    for round in 0..ROUNDS {
        let lists: Vec<List> = (0..FIGURES).map(|_| kind(1, random)).collect();
        for turn in 0..VERSIONS.len() {
            let place = (round + turn) % VERSIONS.len();
            times[place].push(match place {
                0 => one_by_one(&lists, one_proved),
                1 => one_by_one(&lists, one_share::<ByI128>),
                2 => one_by_one(&lists, one_share::<ByU128>),
                _ => one_by_one(&lists, one_share::<Prepared>),
            });
        }
    }
    print_line(name, "each", times.map(median));
}

/// The nanoseconds of a share.
fn one_by_one<R: Ratio>(lists: &[List], share: impl Fn(i64, &R) -> i64) -> f64 {
    let ready = |list: &List| {
        let [ratio] = R::ready([list.part], list.exposure);
        (list.outstandings[0], ratio)
    };
    let asked: Vec<(i64, R)> = lists.iter().map(ready).collect();
    let mut sum = 0i64;
    let time = nanoseconds_of(|| {
        for (outstanding, ratio) in black_box(&asked) {
            sum = sum.wrapping_add(share(*outstanding, ratio));
        }
    });
    black_box(sum);
    time / asked.len() as f64
}

fn print_line(name: &str, length: &str, times: [f64; VERSIONS.len()]) {
    print!("{name:<18} {length:>9}");
    for nanoseconds in times {
        print!(" {nanoseconds:>9.2}");
    }
    let [proved, _, by_u128, prepared] = times;
    println!(" {:>9.2} {:>9.2}", proved / by_u128, proved / prepared);
}

/// In each round the versions get new inputs, all the same, and another goes first.
fn time(name: &str, kind: Kind, length: usize, random: &mut Random) {
    let mut times = [const { Vec::new() }; VERSIONS.len()];
    for round in 0..ROUNDS {
        let lists: Vec<List> = (0..FIGURES / length)
            .map(|_| kind(length, random))
            .collect();
        for turn in 0..VERSIONS.len() {
            let place = (round + turn) % VERSIONS.len();
            times[place].push(nanoseconds(&lists, length, VERSIONS[place].1));
        }
    }
    print_line(name, &length.to_string(), times.map(median));
}

/// Of a share.
fn nanoseconds(lists: &[List], length: usize, version: Version) -> f64 {
    let mut figures: Vec<i64> = lists
        .iter()
        .flat_map(|list| list.outstandings.iter().copied())
        .collect();
    let time = nanoseconds_of(|| {
        for (list, figures) in lists.iter().zip(figures.chunks_exact_mut(length)) {
            black_box(black_box(version)(list.part, list.exposure, figures));
        }
    });
    time / black_box(figures).len() as f64
}

fn print_times(random: &mut Random) {
    println!("nanoseconds a share, median of {ROUNDS} rounds of {FIGURES} shares, and the proved time over that of u128 and of prepared:");
    println!("each share by a prepared ratio of its own, or lists of this length by one ratio that is prepared in the call");
    print!("{:<18} {:>9}", "inputs", "list");
    for (name, _) in VERSIONS {
        print!(" {name:>9}");
    }
    println!(" {:>9} {:>9}", "/u128", "/prepared");
    let kinds: [(&str, Kind); 3] = [
        ("any in range", in_range),
        ("weights up to 2", with_weights_to_2),
        ("weights up to 100", with_weights_to_100),
    ];
    for (name, kind) in kinds {
        time_one_by_one(name, kind, random);
        for length in LENGTHS {
            time(name, kind, length, random);
        }
    }
}

fn main() {
    let mut random = Random(SEED);
    println!("seed {SEED}");
    compare_shares(&mut random);
    compare_products(&mut random);
    print_times(&mut random);
}
