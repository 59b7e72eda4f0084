//! The answer lists of an accepted triangle.

use super::projection::Development;
use super::ONE_UNIT;

/// A payment, an adjustment and an outstanding for each unseen cell.
pub fn future_list(development: &Development) -> Vec<i64> {
    let mut list = vec![];
    for movement in development.projected.iter().flatten() {
        list.push(answered(movement.payment));
        list.push(answered(movement.adjustment));
        list.push(answered(movement.outstanding));
    }
    list
}

/// The paid-based reserve, the incurred-based reserve and the closing outstanding of each accident year.
pub fn reserve_list(development: &Development) -> Vec<i64> {
    let mut list = vec![];
    for i in 1..=development.years {
        let row = &development.projected[i];
        let last_outstanding = development.last_outstandings[i] * ONE_UNIT;
        let paid = row.iter().map(|year| year.payment).sum();
        let adjusted: i128 = row.iter().map(|year| year.adjustment).sum();
        let closing = row.last().map_or(last_outstanding, |year| year.outstanding);
        list.push(answered(paid));
        list.push(answered(last_outstanding + adjusted));
        list.push(answered(closing));
    }
    list
}

/// A figure as the lists hold it. Question 9 keeps every figure and every sum of 31 within 64 bits.
pub fn answered(figure: i128) -> i64 {
    i64::try_from(figure).expect("an accepted figure fits 64 bits")
}
