//! The inputs: triangles of three families, and calls with something wrong in them.

use juniperprow::{amounts_length, future_length, reserves_length, weights_length, Triangle};

use crate::random::Random;

const GREATEST_AMOUNT: i64 = 1_000_000_000;
const GREATEST_OUTSTANDING: i64 = 1_000_000_000;

/// What one call lends.
#[derive(Debug)]
pub struct Call {
    pub years: i64,
    pub cut: i64,
    pub payments: Vec<i64>,
    pub adjustments: Vec<i64>,
    pub weights: Vec<i64>,
    pub openings: Vec<i64>,
    pub future_length: usize,
    pub reserves_length: usize,
}

impl Call {
    pub fn triangle(&self) -> Triangle<'_> {
        Triangle {
            years: self.years,
            cut: self.cut,
            payments: &self.payments,
            adjustments: &self.adjustments,
            weights: &self.weights,
            openings: &self.openings,
        }
    }

    /// Nothing is missing; a cell has its payment and adjustment from its place and the outstanding before it.
    fn with_cells(
        n: usize,
        weights: Vec<i64>,
        mut cell: impl FnMut(usize, usize, i64) -> (i64, i64),
    ) -> Call {
        let mut payments = Vec::with_capacity(amounts_length(n));
        let mut adjustments = Vec::with_capacity(amounts_length(n));
        for i in 1..=n {
            let mut outstanding = 0;
            for k in 1..=n + 1 - i {
                let (payment, adjustment) = cell(i, k, outstanding);
                outstanding += adjustment - payment;
                payments.push(payment);
                adjustments.push(adjustment);
            }
        }
        Call {
            years: n as i64,
            cut: 1,
            payments,
            adjustments,
            weights,
            openings: vec![],
            future_length: future_length(n),
            reserves_length: reserves_length(n),
        }
    }

    /// The same triangle, in which nothing is missing yet, without its oldest cells.
    fn cut_at(mut self, cut: usize) -> Call {
        let n = self.years as usize;
        let (mut amount_at, mut weight_at) = (0, 0);
        for i in 1..cut {
            let payments = &mut self.payments[amount_at..amount_at + cut - i];
            let adjustments = &mut self.adjustments[amount_at..amount_at + cut - i];
            let opening = adjustments.iter().sum::<i64>() - payments.iter().sum::<i64>();
            self.openings.push(opening);
            payments.fill(0);
            adjustments.fill(0);
            self.weights[weight_at..weight_at + cut - i].fill(0);
            amount_at += n + 1 - i;
            weight_at += n - i;
        }
        self.cut = cut as i64;
        self
    }
}

fn weights(n: usize, least: i64, most: i64, random: &mut Random) -> Vec<i64> {
    (0..weights_length(n))
        .map(|_| random.uniform(least, most))
        .collect()
}

// ---- Families

pub struct Family {
    pub name: &'static str,
    pub call: fn(usize, &mut Random) -> Call,
}

pub const FAMILIES: [Family; 3] = [
    Family {
        name: "run-off, weights 1",
        call: run_off,
    },
    Family {
        name: "weights 0 to 100",
        call: run_off_with_weights,
    },
    Family {
        name: "near the limits",
        call: |n, random| near_limits(n, 102_000_000, random),
    },
];

/// A portfolio that grows a little from year to year, and pays nearly all that it reports within n years.
fn run_off(n: usize, random: &mut Random) -> Call {
    let years = n as i64;
    let volume = random.pick(&[100_000, 1_000_000, 20_000_000]) + random.uniform(0, 99_999);
    // In thousandths of the outstanding, as the trend below.
    let payment = 4_600 / years;
    Call::with_cells(n, weights(n, 1, 1, random), |i, k, outstanding| {
        if k == 1 {
            let expected = volume * (970 + 30 * i as i64) / 1_000;
            let reported = expected * random.uniform(700, 1_300) / 1_000;
            return (reported * random.uniform(200, 500) / 1_000, reported);
        }
        let paid = outstanding * (payment * random.uniform(60, 100) / 100).min(900) / 1_000;
        // Case estimates rise at first and fall later.
        let trend = payment * (years - 3 * k as i64) / (4 * years);
        let adjusted = outstanding * (trend + random.uniform(-40, 40)) / 1_000;
        (paid, adjusted.max(paid - outstanding))
    })
}

/// The same with weights, and with up to half of the diagonals missing.
fn run_off_with_weights(n: usize, random: &mut Random) -> Call {
    let mut call = run_off(n, random);
    call.weights = weights(n, 0, 100, random);
    call.cut_at(random.uniform(1, 1.max(n as i64 / 2)) as usize)
}

/// Amounts and outstandings next to their limits.
/// In one development year the older rows have outstandings from `low` on, so that the row after them grows towards the limit of projected figures.
fn near_limits(n: usize, low: i64, random: &mut Random) -> Call {
    let low_year = random.uniform(1, n as i64 - 1) as usize;
    Call::with_cells(n, weights(n, 90, 100, random), |i, k, outstanding| {
        let next = if k == low_year && i + k <= n {
            random.uniform(low, low + 2_000_000)
        } else {
            GREATEST_OUTSTANDING - random.uniform(0, 5_000_000)
        };
        let change = next - outstanding;
        let least = (-GREATEST_AMOUNT).max(-GREATEST_AMOUNT - change);
        let most = GREATEST_AMOUNT.min(GREATEST_AMOUNT - change);
        let payment = match random.uniform(0, 9) {
            0 => least + random.uniform(0, 5_000_000),
            _ => most - random.uniform(0, 5_000_000),
        };
        (payment, payment + change)
    })
}

// ---- Calls with something wrong

/// A call of any size with one or two things changed. Most are refused.
pub fn changed_call(random: &mut Random) -> Call {
    let n = random.uniform(2, 32) as usize;
    let mut call = match FAMILIES.get(random.place(FAMILIES.len() + 1)) {
        Some(family) => (family.call)(n, random),
        None => near_limits(n, random.pick(&[1, 50_000_000, 98_000_000]), random),
    };
    if call.cut == 1 && random.uniform(0, 1) == 0 {
        call = call.cut_at(random.uniform(1, n as i64 - 1) as usize);
    }
    for _ in 0..random.uniform(1, 2) {
        change(n, &mut call, random);
    }
    call
}

fn change(n: usize, call: &mut Call, random: &mut Random) {
    let years = n as i64;
    let extreme = random.pick(&[i64::MIN, i64::MIN + 1, -1, i64::MAX - 1, i64::MAX]);
    let limit = GREATEST_AMOUNT + random.uniform(0, 1);
    let amount = random.pick(&[limit, -limit, 0, 1, extreme]);
    let weight = random.pick(&[0, 1, 100, 101, extreme]);
    let opening = random.pick(&[GREATEST_OUTSTANDING, GREATEST_OUTSTANDING + 1, extreme]);
    match random.uniform(0, 11) {
        0 => call.years = random.pick(&[0, 1, 33, years - 1, years + 1, extreme]),
        1 => call.cut = random.pick(&[0, years, years + 1, extreme]),
        2 => change_length(call, random),
        3..=4 => set_one(&mut call.weights, weight, random),
        5..=6 => set_one(&mut call.payments, amount, random),
        7..=8 => set_one(&mut call.adjustments, amount, random),
        9 => set_one(&mut call.openings, opening, random),
        10 => without_weights(n, call, random),
        _ => {}
    }
}

fn set_one(list: &mut [i64], number: i64, random: &mut Random) {
    if !list.is_empty() {
        list[random.place(list.len())] = number;
    }
}

/// Makes one of the six lists longer or shorter.
fn change_length(call: &mut Call, random: &mut Random) {
    let longer = random.uniform(0, 1) == 1;
    let list = match random.uniform(1, 6) {
        1 => &mut call.payments,
        2 => &mut call.adjustments,
        3 => &mut call.weights,
        4 => &mut call.openings,
        5 => return call.future_length = call.future_length / 2 + usize::from(longer),
        _ => return call.reserves_length = call.reserves_length / 2 + usize::from(longer),
    };
    if longer {
        list.push(0);
    } else {
        list.pop();
    }
}

/// Puts the weights of one development year to 0.
fn without_weights(n: usize, call: &mut Call, random: &mut Random) {
    let year = random.uniform(1, n as i64 - 1) as usize;
    let mut row = 0;
    for i in 1..=n - year {
        if let Some(weight) = call.weights.get_mut(row + year - 1) {
            *weight = 0;
        }
        row += n - i;
    }
}
