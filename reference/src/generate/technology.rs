//! Technologies of all sorts for delays, and drivers.

use crate::delay::Technology;
use crate::lists::Lists;
use crate::random::Random;

/// Both numbers over the whole range of exponents, or near those where loads and metal count alike; one in sixteen has a wrong number.
pub fn technology(random: &mut Random) -> Technology {
    let (mut resistance, mut capacitance) = if random.one_in(2) {
        (whole_range(random), whole_range(random))
    } else {
        (near(random, -80, 80), near(random, -60, 30))
    };
    if random.one_in(16) {
        let wrong = wrong(random);
        if random.one_in(2) {
            resistance = wrong
        } else {
            capacitance = wrong
        }
    }
    Technology {
        resistance,
        capacitance,
    }
}

/// Any finite number above zero, subnormal ones among them: random bits of the exponent and of the fraction, some of them few.
fn whole_range(random: &mut Random) -> f64 {
    let exponent = random.below(0x7ff) as u64;
    let number = exponent << 52 | fraction(random);
    f64::from_bits(number.max(1))
}

/// A number with an exponent from `low` to `high`.
fn near(random: &mut Random, low: i32, high: i32) -> f64 {
    let exponent = (1023 + random.between(low, high)) as u64;
    f64::from_bits(exponent << 52 | fraction(random))
}

/// 52 bits: none, few at either end, or random ones.
fn fraction(random: &mut Random) -> u64 {
    let bits = random.bits() >> 12;
    match random.below(4) {
        0 => 0,
        1 => bits >> random.below(52),
        2 => bits & !(u64::MAX >> 12 >> random.below(52)),
        _ => bits,
    }
}

/// What is no resistance and no capacitance.
fn wrong(random: &mut Random) -> f64 {
    let negative = -whole_range(random);
    let not_a_number = f64::from_bits(0x7ff0_0000_0000_0001 | random.bits());
    random.choose(&[
        f64::INFINITY,
        f64::NEG_INFINITY,
        f64::NAN,
        not_a_number,
        0.0,
        -0.0,
        negative,
        -f64::from_bits(1),
    ])
}

/// The place of one of the pins, or one off it, or any.
pub fn driver(random: &mut Random, lists: &Lists) -> (i32, i32) {
    let pins: Vec<&[i32]> = lists.pins.chunks_exact(3).collect();
    if pins.is_empty() || random.one_in(64) {
        return (random.bits() as i32, random.bits() as i32);
    }
    let pin = random.choose(&pins);
    match random.below(16) {
        0 => (pin[0].wrapping_add(1), pin[1]),
        1 => (pin[0], pin[1].wrapping_sub(1)),
        _ => (pin[0], pin[1]),
    }
}
