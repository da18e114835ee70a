//! "Price on the job card", document 02's second request, with "Halves to even", its sixth, and "Band lists that fall back", its tenth, by the
//! plainest means.

use std::cmp::Ordering;

/// C31 refuses every rate above this.
const HIGHEST_RATE: u64 = 1_000_000;

/// The charge in hundredths for so much metal, or 31, 37 or 32.
pub fn price(metal: u64, bands: &[u64]) -> Result<u64, u32> {
    if bands.is_empty() || !bands.len().is_multiple_of(2) {
        return Err(31);
    }
    let bands: Vec<(u64, u64)> = bands.chunks(2).map(|band| (band[0], band[1])).collect();
    if bands.iter().any(|&(_, rate)| rate > HIGHEST_RATE) {
        return Err(31);
    }
    // C75: 37 comes after 31 and before 32.
    if !in_order(&bands) {
        return Err(37);
    }
    // B3: the earliest band that reaches the metal; C32 where none does.
    let first = bands.iter().find(|&&(limit, _)| limit >= metal);
    first.map(|&(_, rate)| charge(metal, rate)).ok_or(32)
}

/// "Limits rise strictly and rates don't fall": sorting both, and leaving out repeated limits, changes nothing.
fn in_order(bands: &[(u64, u64)]) -> bool {
    let (limits, rates): (Vec<u64>, Vec<u64>) = bands.iter().copied().unzip();
    let mut rising = limits.clone();
    rising.sort();
    rising.dedup();
    let mut never_falling = rates.clone();
    never_falling.sort();
    limits == rising && rates == never_falling
}

/// B4: the nearest whole number of hundredths; of two equally near ones, the even one.
fn charge(metal: u64, rate: u64) -> u64 {
    let thousandths = u128::from(metal) * u128::from(rate);
    let below = thousandths / 1_000;
    let above = below + 1;
    let (to_below, to_above) = (thousandths - below * 1_000, above * 1_000 - thousandths);
    let nearest = match to_below.cmp(&to_above) {
        Ordering::Less => below,
        Ordering::Greater => above,
        Ordering::Equal if below.is_multiple_of(2) => below,
        Ordering::Equal => above,
    };
    u64::try_from(nearest).expect("a net's metal is far below 2^53")
}

#[cfg(test)]
mod tests {
    use super::price;

    /// The edges of each sentence of the three requests.
    #[test]
    fn worked_prices() {
        let two = [100, 10, 200, 20];
        for (metal, bands, answer) in [
            // "2.5 hundredths is 2 and 3.5 is 4."
            (500, &[500, 5][..], Ok(2)),
            (500, &[500, 7], Ok(4)),
            (499, &[500, 5], Ok(2)),
            (2_499, &[9_000, 1], Ok(2)),
            (2_500, &[9_000, 1], Ok(2)),
            (2_501, &[9_000, 1], Ok(3)),
            (3_499, &[9_000, 1], Ok(3)),
            (3_500, &[9_000, 1], Ok(4)),
            (500, &[9_000, 1], Ok(0)),
            (0, &[0, 1_000_000], Ok(0)),
            (100, &two, Ok(1)),
            (101, &two, Ok(2)),
            (200, &two, Ok(4)),
            (201, &two, Err(32)),
            (100, &[200, 10, 300, 20], Ok(1)),
            (1, &[10, 5, 20], Err(31)),
            (1, &[], Err(31)),
            (1, &[10, 5, 20, 1_000_001], Err(31)),
            (11, &[10, 1_000_001], Err(31)),
            // "Limits rise strictly and rates don't fall."
            (1, &[100, 10, 100, 20], Err(37)),
            (1, &[200, 10, 100, 20], Err(37)),
            (1, &[100, 10, 200, 9], Err(37)),
            (101, &[100, 10, 200, 10], Ok(1)),
            (1, &[100, 10, 200, 20, 200, 30], Err(37)),
            (250, &[100, 10, 100, 20, 300, 30], Err(37)),
            (1, &[100, 10, 300, 20, 200, 30], Err(37)),
            (1, &[0, 0, 0, 0], Err(37)),
            (1, &[0, 0, u64::MAX, 0], Ok(0)),
            // "Between 31 and 32."
            (1, &[200, 10, 100, 1_000_001], Err(31)),
            (1, &[200, 10, 100, 20, 300], Err(31)),
            (201, &[200, 10, 100, 20], Err(37)),
            (100, &[100, 10], Ok(1)),
            (101, &[100, 10], Err(32)),
            (1_000, &[u64::MAX, 1_000_000], Ok(1_000_000)),
        ] {
            assert_eq!(price(metal, bands), answer, "{metal} by {bands:?}");
        }
    }
}
