//! Workbooks: the triangle of a round as floats and blanks, with cells that miss a question or meet it only just.

use std::fmt;

use juniperprow::{Workbook, BLANK, NUMBER};

use super::near_miss::changed_length;
use super::outline::LIMIT;
use super::Round;
use crate::random::Random;

/// Draws other numbers than the round's own.
const SEED: u64 = 0x0b00_c0de;

/// 2^64 as a float.
const BEYOND_64_BITS: f64 = 18_446_744_073_709_551_616.0;

/// What a workbook lends besides its round.
pub struct LentCells {
    payments: CellList,
    adjustments: CellList,
    pub reserve_pairs_length: usize,
}

/// One list of cells; the two lists of it may differ in length.
struct CellList {
    kinds: Vec<u8>,
    numbers: Vec<f64>,
}

impl LentCells {
    /// The round's amounts as cells. Half of the workbooks are left so.
    pub fn drawn(round: &Round) -> LentCells {
        let mut random = Random::for_round(round.seed ^ SEED, round.number);
        let mut lent = LentCells {
            payments: CellList::of(round, &round.payments, &mut random),
            adjustments: CellList::of(round, &round.adjustments, &mut random),
            reserve_pairs_length: 2 * round.reserves_length,
        };
        for _ in 0..random.pick(&[0, 0, 0, 0, 1, 1, 2, 4]) {
            lent.change(&mut random);
        }
        lent
    }

    pub fn workbook<'a>(&'a self, round: &'a Round) -> Workbook<'a> {
        Workbook {
            years: round.years,
            cut: round.cut,
            payment_kinds: &self.payments.kinds,
            payments: &self.payments.numbers,
            adjustment_kinds: &self.adjustments.kinds,
            adjustments: &self.adjustments.numbers,
            weights: &round.weights,
            openings: &round.openings,
        }
    }

    /// Changes one cell, one length, or now and then a whole list.
    fn change(&mut self, random: &mut Random) {
        let list = if random.one_in(2) {
            &mut self.payments
        } else {
            &mut self.adjustments
        };
        match random.below(40) {
            0..=6 => list.put_kind(unknown_kind(random), random),
            7..=13 => list.put_number(no_whole_number(random), random),
            14..=20 => list.put_number(large_number(random), random),
            21..=27 => list.turn_kind(random),
            28..=30 => list.step_beside_number(random),
            31 => list.put_number(whole_at_limit(random), random),
            32 => list
                .kinds
                .resize(changed_length(list.kinds.len(), random), 1),
            33 => list
                .numbers
                .resize(changed_length(list.numbers.len(), random), 1.0),
            34 => self.reserve_pairs_length = changed_length(self.reserve_pairs_length, random),
            35 => list.fill_kinds(random),
            36 => list.fill_numbers(random),
            _ => {}
        }
    }
}

impl CellList {
    /// A blank at every missing cell with anything beside it, a number at every other. A zero may be minus zero.
    fn of(round: &Round, amounts: &[i64], random: &mut Random) -> CellList {
        let (mut kinds, mut numbers) = (vec![], vec![]);
        let mut diagonals = diagonals(round.years);
        for &amount in amounts {
            let missing = diagonals.next().map_or(false, |sum| sum <= round.cut);
            let (kind, number) = match amount {
                _ if missing => (BLANK, beside_blank(amount, random)),
                0 => (NUMBER, random.pick(&[0.0, -0.0])),
                _ => (NUMBER, amount as f64),
            };
            kinds.push(kind);
            numbers.push(number);
        }
        CellList { kinds, numbers }
    }

    fn put_kind(&mut self, kind: u8, random: &mut Random) {
        if !self.kinds.is_empty() {
            let position = random.below(self.kinds.len());
            self.kinds[position] = kind;
        }
    }

    fn put_number(&mut self, number: f64, random: &mut Random) {
        if !self.numbers.is_empty() {
            let position = random.below(self.numbers.len());
            self.numbers[position] = number;
        }
    }

    /// A blank becomes a number, half of the time 0, and a number becomes blank.
    fn turn_kind(&mut self, random: &mut Random) {
        if !self.kinds.is_empty() {
            let position = random.below(self.kinds.len());
            self.kinds[position] ^= 1;
            if let (true, Some(number)) = (random.one_in(2), self.numbers.get_mut(position)) {
                *number = random.pick(&[0.0, -0.0]);
            }
        }
    }

    /// A number becomes the next float above or below it, in size.
    fn step_beside_number(&mut self, random: &mut Random) {
        if !self.numbers.is_empty() {
            let position = random.below(self.numbers.len());
            let bits = self.numbers[position].to_bits();
            let step = random.pick(&[1, u64::MAX]);
            self.numbers[position] = f64::from_bits(bits.wrapping_add(step));
        }
    }

    fn fill_kinds(&mut self, random: &mut Random) {
        let most = random.pick(&[1, 2, 255]);
        for kind in &mut self.kinds {
            *kind = random.between(0, most) as u8;
        }
    }

    fn fill_numbers(&mut self, random: &mut Random) {
        for number in &mut self.numbers {
            *number = f64::from_bits(random.next());
        }
    }

    fn cells(&self) -> impl Iterator<Item = (u8, f64)> + '_ {
        self.kinds.iter().copied().zip(self.numbers.iter().copied())
    }
}

/// i + k of every seen cell, row after row, for a number of years that a triangle may have.
fn diagonals(years: i64) -> impl Iterator<Item = i64> {
    let n = if (2..=32).contains(&years) { years } else { 0 };
    (1..=n).flat_map(move |i| (1..=n + 1 - i).map(move |k| i + k))
}

// ---------------------------------------------------------------------------------------------
// Kinds and numbers
// ---------------------------------------------------------------------------------------------

fn unknown_kind(random: &mut Random) -> u8 {
    let any = random.between(2, 255) as u8;
    random.pick(&[2, 3, 128, 255, any])
}

/// Anything may stand beside a blank.
fn beside_blank(amount: i64, random: &mut Random) -> f64 {
    match random.below(8) {
        0..=4 => amount as f64,
        5 => no_whole_number(random),
        6 => large_number(random),
        _ => f64::from_bits(random.next()),
    }
}

/// A number that is not finite and whole.
fn no_whole_number(random: &mut Random) -> f64 {
    let quiet_or_signalling = random.pick(&[0x7ff8_0000_0000_0000, 0x7ff0_0000_0000_0001]);
    let sign = random.pick(&[1.0, -1.0]);
    sign * match random.below(10) {
        0 => f64::INFINITY,
        1 => return f64::from_bits(quiet_or_signalling | random.next() << 63),
        2 => 0.5,
        3 => random.between(0, LIMIT) as f64 + 0.5,
        // The floats beside 1, and the largest one that is not whole.
        4 => 1.0 - f64::EPSILON / 2.0,
        5 => 1.0 + f64::EPSILON,
        6 => 4_503_599_627_370_495.5,
        // Subnormal numbers, and the smallest that is none.
        7 => f64::from_bits(1),
        8 => f64::from_bits(random.index(1, (1 << 52) - 1) as u64),
        _ => f64::MIN_POSITIVE,
    }
}

/// A whole number beyond the range of amounts.
fn large_number(random: &mut Random) -> f64 {
    let any_power = 2_f64.powi(random.index(30, 1023) as i32);
    // From 2^53 on not every whole number is a float; 2^63 and 2^64 are the ends of 64 bits.
    let power = 2_f64.powi(random.pick(&[53, 54, 63, 64]));
    // Its lower 64 bits are an amount in range.
    let wrapped = BEYOND_64_BITS + random.between(0, 200_000) as f64 * 4_096.0;
    let sign = random.pick(&[1.0, -1.0]);
    sign * random.pick(&[
        LIMIT as f64 + 1.0,
        power,
        power * (1.0 + f64::EPSILON),
        power * (1.0 - f64::EPSILON / 2.0),
        any_power,
        wrapped,
        1e300,
        f64::MAX,
    ])
}

/// A whole number at the limit of amounts or one below it.
fn whole_at_limit(random: &mut Random) -> f64 {
    random.pick(&[LIMIT, LIMIT - 1, -LIMIT, 1 - LIMIT]) as f64
}

// ---------------------------------------------------------------------------------------------
// What the tally asks
// ---------------------------------------------------------------------------------------------

impl LentCells {
    /// Is a float beside a blank not finite and whole?
    pub fn has_no_number_beside_blank(&self) -> bool {
        self.any(|kind, number| kind == BLANK && !(number.is_finite() && number.fract() == 0.0))
    }

    pub fn has_minus_zero(&self) -> bool {
        self.any(|kind, number| kind == NUMBER && number.to_bits() == 1 << 63)
    }

    pub fn has_number_beyond_64_bits(&self) -> bool {
        self.any(|kind, number| kind == NUMBER && number.abs() >= BEYOND_64_BITS)
    }

    fn any(&self, asked: impl Fn(u8, f64) -> bool) -> bool {
        let mut cells = self.payments.cells().chain(self.adjustments.cells());
        cells.any(|(kind, number)| asked(kind, number))
    }
}

impl fmt::Display for LentCells {
    fn fmt(&self, formatter: &mut fmt::Formatter) -> fmt::Result {
        write!(
            formatter,
            "the workbook with payment kinds {:?}, payments {:?}, adjustment kinds {:?}, adjustments {:?}, and {} numbers in its pairs",
            self.payments.kinds,
            self.payments.numbers,
            self.adjustments.kinds,
            self.adjustments.numbers,
            self.reserve_pairs_length
        )
    }
}
