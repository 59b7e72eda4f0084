//! How often every number and every size was met, so that the test cannot become empty unnoticed.

use std::collections::BTreeMap;

/// How often each thing was met that a call counts, by what it is in words.
#[derive(Default)]
pub struct Tally {
    met: BTreeMap<String, u64>,
}

/// What has to be met at least once in so many calls.
pub struct Demand {
    pub what: String,
    pub one_in: u64,
}

impl Demand {
    pub fn new(what: impl Into<String>, one_in: u64) -> Demand {
        let what = what.into();
        Demand { what, one_in }
    }
}

impl Tally {
    /// Counts what was met once more.
    pub fn count(&mut self, what: impl Into<String>) {
        self.add_times(what.into(), 1);
    }

    /// How often it was met.
    pub fn times(&self, what: &str) -> u64 {
        self.met.get(what).copied().unwrap_or(0)
    }

    /// Adds the counts of another part of the calls.
    pub fn add(&mut self, other: &Tally) {
        for (what, times) in &other.met {
            self.add_times(what.clone(), *times);
        }
    }

    fn add_times(&mut self, what: String, times: u64) {
        *self.met.entry(what).or_insert(0) += times;
    }

    /// What was met too seldom among `calls` calls, in words; everything has to be met at least once.
    pub fn shortfalls(&self, calls: u64, demands: &[Demand]) -> Vec<String> {
        demands
            .iter()
            .filter(|demand| self.times(&demand.what) < (calls / demand.one_in).max(1))
            .map(|Demand { what, one_in }| {
                let times = self.times(what);
                format!("{what}: {times} times, wanted once in {one_in} calls")
            })
            .collect()
    }
}

#[cfg(test)]
mod tests {
    use super::{Demand, Tally};

    #[test]
    fn what_is_met_too_seldom_is_said() {
        let demands = [Demand::new("accepted", 4), Demand::new("refused", 100)];
        let mut tally = Tally::default();
        let never = [
            "accepted: 0 times, wanted once in 4 calls",
            "refused: 0 times, wanted once in 100 calls",
        ];
        assert_eq!(tally.shortfalls(8, &demands), never);

        tally.count("accepted");
        tally.count("refused");
        let once = ["accepted: 1 times, wanted once in 4 calls"];
        assert_eq!(tally.shortfalls(8, &demands), once);

        let mut other = Tally::default();
        other.count("accepted");
        tally.add(&other);
        assert_eq!(tally.times("accepted"), 2);
        assert!(tally.shortfalls(8, &demands).is_empty());
    }
}
