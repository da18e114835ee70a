//! Lists of bands for so much metal: in order, broken at one place, and hostile.

use super::kinds;
use crate::random::Random;

kinds! {
    /// A kind of band list.
    BandList {
        InOrder "in-order" "limits rise strictly and rates never fall, the last limit reaching the metal",
        Half "half" "one band, its rate such that the charge falls on a half or beside it",
        JustReaches "just-reaches" "in order, with limits one below the metal, equal to it and one above",
        Huge "huge" "in order, with limits up to 2^64 - 1 and the highest rate",
        Long "long" "in order, thousands of bands, the last few reaching the metal",
        Short "short" "refused 32: in order, every limit below the metal, unless there is none",
        OneBelow "one-below" "refused 32: in order, the last limit one below the metal, unless there is none",
        EqualLimits "equal-limits" "refused 37: in order but for one limit equal to the one before it",
        FallingLimit "falling-limit" "refused 37: in order but for one limit below the one before it",
        FallingRate "falling-rate" "refused 37: in order but for one rate below the one before it",
        Exchanged "exchanged" "refused 37: in order but for two neighbours that stand in each other's place",
        FallingShort "falling-short" "refused 37: every limit below the metal, and one below the one before it",
        FallingAbove "falling-above" "refused 31: one limit falls, and one rate is above the highest",
        RateAbove "rate-above" "refused 31: one rate above the highest, in a band that may set no rate",
        Odd "odd" "refused 31: an odd count of numbers",
        Mistyped "mistyped" "in order but for one digit of one number lost, doubled or changed",
        FallingRates "falling-rates" "a list in order with its rates turned round",
        FallingLimits "falling-limits" "limits that fall or are equal, and any rates",
        HugeRate "huge-rate" "refused 31: rates up to 2^64 - 1",
        Empty "empty" "refused 31: no band",
        Anything "anything" "any numbers in any count",
    }
}

const HIGHEST_RATE: u64 = 1_000_000;

/// The list of a kind and a seed, for so much metal.
pub fn bands(kind: BandList, seed: u64, metal: u64) -> Vec<u64> {
    let random = &mut kind.random(seed);
    match kind {
        BandList::InOrder => in_order(random, 1, metal),
        BandList::Half => vec![metal + random.bits() % 3, half_rate(random, metal)],
        BandList::JustReaches => near(random, metal),
        BandList::Huge => huge(random),
        BandList::Long => long(random, metal),
        BandList::Short => short(random, metal),
        BandList::OneBelow => {
            let last = metal.saturating_sub(1);
            let first = last.saturating_sub(random.bits() % 8);
            rated(random, first..=last)
        }
        BandList::EqualLimits => {
            let (mut list, at) = to_break(random, metal);
            list[at] = list[at - 2];
            list
        }
        BandList::FallingLimit => {
            let (mut list, at) = to_break(random, metal);
            list[at] = below(random, list[at - 2]);
            list
        }
        BandList::FallingRate => {
            let (mut list, at) = to_break(random, metal);
            let room = HIGHEST_RATE - list[at + 1];
            list[at - 1] = list[at + 1] + 1 + random.bits() % room;
            list
        }
        BandList::Exchanged => {
            let (mut list, at) = to_break(random, metal);
            list[at - 2..at + 2].rotate_left(2);
            list
        }
        BandList::FallingShort => {
            let mut list = short(random, metal);
            let (limit, rate) = (list[list.len() - 2], list[list.len() - 1]);
            list.extend([random.choose(&[limit, limit / 2]), rate]);
            list
        }
        BandList::FallingAbove => {
            let (mut list, at) = to_break(random, metal);
            list[at] = below(random, list[at - 2]);
            rate_above(random, list)
        }
        BandList::RateAbove => {
            let list = in_order(random, 1, metal);
            rate_above(random, list)
        }
        BandList::Odd => {
            let mut list = in_order(random, 1, metal);
            if random.one_in(2) {
                list.pop();
            } else {
                list.push(random.bits());
            }
            list
        }
        BandList::Mistyped => {
            let mut list = in_order(random, 1, metal);
            let at = random.below(list.len());
            list[at] = mistyped(random, list[at]);
            list
        }
        BandList::FallingRates => {
            let mut list = in_order(random, 1, metal);
            let mut rates: Vec<u64> = list.iter().skip(1).step_by(2).copied().collect();
            rates.reverse();
            for (place, rate) in rates.into_iter().enumerate() {
                list[2 * place + 1] = rate;
            }
            list
        }
        BandList::FallingLimits => {
            let top = metal + random.bits() % 100;
            pairs(random, |random, place| {
                (top.saturating_sub(place / 2), rate(random))
            })
        }
        BandList::HugeRate => pairs(random, |random, _| (random.bits(), random.bits() | 1 << 40)),
        BandList::Empty => vec![],
        BandList::Anything => {
            let count = random.below(12);
            (0..count).map(|_| anything(random, metal)).collect()
        }
    }
}

/// A rate that passes.
fn rate(random: &mut Random) -> u64 {
    match random.below(4) {
        0 => random.bits() % 10,
        1 => random.bits() % 2_000,
        2 => HIGHEST_RATE - random.bits() % 2,
        _ => random.bits() % (HIGHEST_RATE + 1),
    }
}

/// One to eight bands, each by its place.
fn pairs(random: &mut Random, band: impl Fn(&mut Random, u64) -> (u64, u64)) -> Vec<u64> {
    let count = 1 + random.below(8) as u64;
    (0..count)
        .flat_map(|place| {
            let (limit, rate) = band(random, place);
            [limit, rate]
        })
        .collect()
}

/// Limits that rise and rates that never fall; the metal is reached somewhere. At least so many bands, and at most five more.
fn in_order(random: &mut Random, least: usize, metal: u64) -> Vec<u64> {
    let count = least + random.below(6);
    let (mut limit, mut rate) = (0, 0);
    let mut list = vec![];
    for left in (0..count).rev() {
        let share = 1 + random.bits() % (metal / count as u64 + 2);
        limit = if left == 0 {
            metal.max(limit + 1) + random.bits() % 2
        } else {
            limit + share
        };
        rate = (rate + random.bits() % 5_000).min(HIGHEST_RATE);
        list.extend([limit, rate]);
    }
    list
}

/// These limits, with rates that never fall.
fn rated(random: &mut Random, limits: impl IntoIterator<Item = u64>) -> Vec<u64> {
    let limits: Vec<u64> = limits.into_iter().collect();
    let mut rates: Vec<u64> = limits.iter().map(|_| rate(random)).collect();
    rates.sort();
    limits
        .into_iter()
        .zip(rates)
        .flat_map(|(limit, rate)| [limit, rate])
        .collect()
}

/// Bands in order whose limits stand around the metal; the last one reaches it.
fn near(random: &mut Random, metal: u64) -> Vec<u64> {
    let start = random.choose(&[metal.saturating_sub(1), metal, metal + 1]);
    rated(random, start..=metal + 1)
}

/// Bands in order up to the largest limits that there are.
fn huge(random: &mut Random) -> Vec<u64> {
    let count = 1 + random.bits() % 8;
    let top = u64::MAX - random.bits() % 2;
    let mut list = rated(random, top - (count - 1)..=top);
    if let Some(highest) = list.last_mut() {
        *highest = HIGHEST_RATE;
    }
    list
}

/// Thousands of bands in order, of which at most three reach the metal where it is as large.
fn long(random: &mut Random, metal: u64) -> Vec<u64> {
    let count = 1_000 + random.bits() % 2_000;
    let first = (metal + random.bits() % 3).saturating_sub(count - 1);
    rated(random, first..first + count)
}

/// Bands in order that do not reach the metal, unless there is none.
fn short(random: &mut Random, metal: u64) -> Vec<u64> {
    let count = (1 + random.bits() % 8).min(metal.max(1));
    let top = metal.max(1) - count;
    let any = random.bits() % (top + 1);
    let first = random.choose(&[top, any]);
    rated(random, first..first + count)
}

/// A list in order of two bands or more, and where in it the limit of a band stands that has one before it: the second, the last or any. No
/// rate in it is the highest.
fn to_break(random: &mut Random, metal: u64) -> (Vec<u64>, usize) {
    let mut list = if random.one_in(16) {
        long(random, metal)
    } else {
        in_order(random, 2, metal)
    };
    for rate in list.iter_mut().skip(1).step_by(2) {
        *rate = (*rate).min(HIGHEST_RATE - 1);
    }
    let last = list.len() / 2 - 1;
    let any = 1 + random.below(last);
    let band = random.choose(&[1, last, any]);
    (list, 2 * band)
}

/// A limit below another one; the other one itself where there is none.
fn below(random: &mut Random, limit: u64) -> u64 {
    let under = limit.saturating_sub(1);
    let any = random.bits() % (under + 1);
    random.choose(&[under, any])
}

/// The list with one of its rates above the highest.
fn rate_above(random: &mut Random, mut list: Vec<u64>) -> Vec<u64> {
    let at = 2 * random.below(list.len() / 2) + 1;
    list[at] = HIGHEST_RATE + 1;
    list
}

/// A number of at most 19 digits with one of them lost, doubled or changed.
fn mistyped(random: &mut Random, number: u64) -> u64 {
    let mut digits = number.to_string();
    let at = random.below(digits.len());
    let digit = digits.remove(at);
    match random.below(3) {
        0 => {}
        1 => digits.insert_str(at, &format!("{digit}{digit}")),
        _ => digits.insert(at, random.choose(&['0', '1', '5', '9'])),
    }
    digits.parse().unwrap_or(0)
}

/// A rate at which the metal is charged a half or a thousandth off it, where there is one; else any.
fn half_rate(random: &mut Random, metal: u64) -> u64 {
    let start = random.bits() % 1_000;
    (0..1_000)
        .map(|step| (start + step) % 1_000)
        .find(|rate| (499..=501).contains(&(metal % 1_000 * rate % 1_000)))
        .unwrap_or_else(|| rate(random))
}

/// A number of any size, or one near what the tests compare with.
fn anything(random: &mut Random, metal: u64) -> u64 {
    let near = random.choose(&[
        0,
        1,
        metal,
        metal + 1,
        HIGHEST_RATE,
        HIGHEST_RATE + 1,
        u64::MAX,
    ]);
    random.choose(&[
        near,
        near,
        random.clone().bits() % 1_000,
        random.clone().bits(),
    ])
}
