//! How far costs are apart, in percent: in the mean, at most, and how many are the same.

/// Gaps of single nets, in percent.
#[derive(Default)]
pub struct Gaps(Vec<f64>);

impl Gaps {
    /// By how much a cost is above another, of that other.
    pub fn above(&mut self, cost: i64, least: i64) {
        self.add(cost, least, least);
    }

    /// By how much a bound is below a cost, of that cost.
    pub fn below(&mut self, bound: i64, cost: i64) {
        self.add(cost, bound, cost);
    }

    /// What a cost is more than what it must not be below; of nothing there is no share.
    fn add(&mut self, cost: i64, least: i64, of: i64) {
        assert!(least <= cost, "{cost} is below {least}");
        self.0
            .push((cost - least) as f64 * 100.0 / of.max(1) as f64);
    }

    pub fn mean(&self) -> f64 {
        self.0.iter().sum::<f64>() / self.count() as f64
    }

    pub fn most(&self) -> f64 {
        self.0.iter().copied().fold(0.0, f64::max)
    }

    /// The share of nets without a gap, in percent.
    pub fn same(&self) -> f64 {
        let same = self.0.iter().filter(|&&gap| gap == 0.0).count();
        same as f64 * 100.0 / self.count() as f64
    }

    /// How many nets.
    pub fn count(&self) -> usize {
        self.0.len()
    }
}
