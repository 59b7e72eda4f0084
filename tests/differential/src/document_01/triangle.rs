//! The triangle an office lends.

use juniperprow::Triangle;

/// Numbers by accident year and development year.
pub type Table = Vec<Vec<i128>>;

/// R(i, k) where it is known.
pub type Outstandings = Vec<Vec<Option<i128>>>;

/// The lent lists as tables; their lengths are right.
pub struct Seen {
    pub n: usize,
    pub cut: usize,
    pub payments: Table,
    pub adjustments: Table,
    pub weights: Table,
    pub openings: Vec<i128>,
}

impl Seen {
    pub fn read(n: usize, cut: usize, triangle: &Triangle) -> Seen {
        Seen {
            n,
            cut,
            payments: table(n, n + 1, wide(triangle.payments)),
            adjustments: table(n, n + 1, wide(triangle.adjustments)),
            weights: table_of_weights(n, triangle.weights),
            openings: openings_of(triangle.openings),
        }
    }

    pub fn is_missing(&self, i: usize, k: usize) -> bool {
        i + k <= self.cut
    }
}

/// A list that holds every cell with i + k at most `diagonal`, row after row.
pub fn table(n: usize, diagonal: usize, mut list: impl Iterator<Item = i128>) -> Table {
    let mut table = vec![vec![0; n + 1]; n + 1];
    for (i, k) in cells_to(diagonal) {
        table[i][k] = list.next().expect("the list has its length");
    }
    table
}

pub fn table_of_weights(n: usize, weights: &[i64]) -> Table {
    table(n, n, wide(weights))
}

/// The openings by accident year.
pub fn openings_of(list: &[i64]) -> Vec<i128> {
    std::iter::once(0).chain(wide(list)).collect()
}

fn wide(list: &[i64]) -> impl Iterator<Item = i128> + '_ {
    list.iter().map(|&number| i128::from(number))
}

/// The cells with i + k at most `diagonal`, row after row.
pub fn cells_to(diagonal: usize) -> impl Iterator<Item = (usize, usize)> {
    (1..diagonal).flat_map(move |i| (1..=diagonal - i).map(move |k| (i, k)))
}
