//! Pairs of lists that are to be refused, and lists of anything.

use super::draft::Draft;
use super::{kinds, weights};
use crate::lists::Lists;
use crate::net::Net;
use crate::random::Random;

kinds! {
    /// A kind of hostile lists.
    Hostile {
        PinsNotThrees "pins-not-threes" "refused 11: a pin list that isn't whole threes",
        NoPins "no-pins" "refused 11: an empty pin list",
        ManyPins "many-pins" "refused 11: 129 pins or more",
        MacrosNotFours "macros-not-fours" "refused 12: a macro list that isn't whole fours",
        ManyMacros "many-macros" "refused 12: 129 macros or more",
        JustOutOfRange "just-out-of-range" "refused 13: a coordinate one past the range",
        Extreme "extreme" "refused 13: the least and the greatest 32-bit numbers",
        FlatMacro "flat-macro" "refused 14: left equals right or bottom equals top",
        InsideOut "inside-out" "refused 14: left above right or bottom above top",
        PinTwice "pin-twice" "refused 15: two pins at one place",
        MacroTwice "macro-twice" "refused 16: two equal macros",
        Overlap "overlap" "refused 16: two macros' interiors meet",
        PinInside "pin-inside" "refused 17: a pin in an interior",
        Several "several" "several faults at once: refused with the least number",
        Anything "anything" "lists of any lengths and numbers, most of them refused",
        WeightOutside "weight-outside" "refused 18: a weight outside 1 to 8",
        LoadOutside "load-outside" "refused 13: a load below 0 or above 1,000,000",
    }
}

/// The lists of a kind and a seed; the weights are 1 and 1 where they are not the fault.
pub fn hostile(kind: Hostile, seed: u64) -> Lists {
    let random = &mut kind.random(seed);
    if kind == Hostile::Anything {
        return anything(random);
    }
    let faults = faults(kind, random);
    let mut lists = base(random);
    // The last faults of the check go in first: those of a list's length leave no whole entries
    // to work the others into.
    for &fault in faults.iter().rev() {
        spoil(&mut lists, fault, random);
    }
    lists
}

/// The same lists with weights of all sorts, outside 1 to 8 as often as not. Where the kind fixes a
/// number it stays, since no number of the check comes after 18.
pub fn hostile_weighted(kind: Hostile, seed: u64) -> Lists {
    let lists = hostile(kind, seed);
    let random = &mut kind.random(!seed);
    let weights = match kind {
        Hostile::WeightOutside => weights::outside(random),
        _ => weights::any(random),
    };
    Lists { weights, ..lists }
}

/// The number the lists of a kind and a seed are refused with, where the kind fixes it: the least
/// number of their faults.
pub fn refusal(kind: Hostile, seed: u64) -> Option<u32> {
    let faults = faults(kind, &mut kind.random(seed));
    faults.into_iter().filter_map(number).min()
}

/// The faults in the order of the check: the kind itself, or two to four for several at once.
fn faults(kind: Hostile, random: &mut Random) -> Vec<Hostile> {
    if kind != Hostile::Several {
        return vec![kind];
    }
    // A weight that is wrong as well is left to `hostile_weighted`.
    let single = |fault: &Hostile| number(*fault).is_some_and(|number| number < 18);
    let mut faults: Vec<Hostile> = Hostile::ALL.iter().copied().filter(single).collect();
    random.shuffle(&mut faults);
    faults.truncate(2 + random.below(3));
    faults.sort_by_key(|&fault| fault as u32);
    faults
}

/// The refusal that a single fault is for.
fn number(fault: Hostile) -> Option<u32> {
    match fault {
        Hostile::PinsNotThrees | Hostile::NoPins | Hostile::ManyPins => Some(11),
        Hostile::MacrosNotFours | Hostile::ManyMacros => Some(12),
        Hostile::JustOutOfRange | Hostile::Extreme | Hostile::LoadOutside => Some(13),
        Hostile::FlatMacro | Hostile::InsideOut => Some(14),
        Hostile::PinTwice => Some(15),
        Hostile::MacroTwice | Hostile::Overlap => Some(16),
        Hostile::PinInside => Some(17),
        Hostile::WeightOutside => Some(18),
        Hostile::Several | Hostile::Anything => None,
    }
}

/// A small allowed net with a pin and a macro at least, with room for a few entries more, and
/// weights 1 and 1.
fn base(random: &mut Random) -> Lists {
    let mut draft = Draft::default();
    let tries = random.between(1, 8);
    draft.macros_between(random, tries, (-9, 9), 6);
    let tries = random.between(1, 8);
    draft.pins_on_sides(random, tries);
    let tries = random.between(0, 8);
    draft.pins_between(random, tries, -9, 9);
    draft.lists()
}

/// Works one fault into the lists.
fn spoil(lists: &mut Lists, fault: Hostile, random: &mut Random) {
    match fault {
        Hostile::PinsNotThrees => {
            for _ in 0..random.between(1, 2) {
                lists.pins.push(random.between(-9, 9));
            }
        }
        Hostile::NoPins => lists.pins.clear(),
        Hostile::ManyPins => fill(
            &mut lists.pins,
            Net::PIN_NUMBERS * Net::PINS,
            Net::PIN_NUMBERS,
            random,
        ),
        Hostile::MacrosNotFours => {
            for _ in 0..random.between(1, 3) {
                lists.macros.push(random.between(-9, 9));
            }
        }
        Hostile::ManyMacros => fill(&mut lists.macros, 4 * Net::MACROS, 4, random),
        Hostile::JustOutOfRange => {
            let past = Net::COORDINATE + 1;
            replace(lists, random.choose(&[-past, past]), random);
        }
        Hostile::Extreme => {
            for _ in 0..random.between(1, 4) {
                replace(lists, random.choose(&[i32::MIN, i32::MAX]), random);
            }
        }
        Hostile::FlatMacro => add_flat(lists, random),
        Hostile::InsideOut => add_inside_out(lists, random),
        Hostile::PinTwice => {
            // "Whatever the load."
            let mut pin = entry(&lists.pins, Net::PIN_NUMBERS, random);
            pin[2] = random.choose(&[pin[2], 0, 1, Net::LOAD]);
            insert(&mut lists.pins, &pin, random);
        }
        Hostile::MacroTwice => {
            let four = entry(&lists.macros, 4, random);
            insert(&mut lists.macros, &four, random);
        }
        Hostile::Overlap => add_overlap(lists, random),
        Hostile::PinInside => {
            // A macro one unit wide has no whole place inside, so one with room is put in, far
            // from all others.
            let x = random.between(100, 200);
            insert(&mut lists.macros, &[x, 0, x + 2, 2], random);
            insert(&mut lists.pins, &[x + 1, 1, 0], random);
        }
        Hostile::WeightOutside => lists.weights = weights::outside(random),
        Hostile::LoadOutside => {
            let pin = random.below(lists.pins.len() / Net::PIN_NUMBERS);
            lists.pins[pin * Net::PIN_NUMBERS + 2] =
                random.choose(&[-1, Net::LOAD + 1, i32::MIN, i32::MAX]);
        }
        Hostile::Several | Hostile::Anything => unreachable!("these are no single fault"),
    }
}

/// One entry of a list of whole entries.
fn entry(list: &[i32], width: usize, random: &mut Random) -> Vec<i32> {
    let at = random.below(list.len() / width) * width;
    list[at..at + width].to_vec()
}

/// One macro's left, bottom, right and top.
fn any_macro(lists: &Lists, random: &mut Random) -> (i32, i32, i32, i32) {
    let four = entry(&lists.macros, 4, random);
    (four[0], four[1], four[2], four[3])
}

/// Puts in a macro with left equal to right, bottom equal to top, or both.
fn add_flat(lists: &mut Lists, random: &mut Random) {
    let (left, bottom, right, top) = any_macro(lists, random);
    let new = match random.below(3) {
        0 => [left, bottom, left, top],
        1 => [left, bottom, right, bottom],
        _ => [left, bottom, left, bottom],
    };
    insert(&mut lists.macros, &new, random);
}

/// Puts in a macro with left above right, bottom above top, or both.
fn add_inside_out(lists: &mut Lists, random: &mut Random) {
    let (left, bottom, right, top) = any_macro(lists, random);
    let new = match random.below(3) {
        0 => [right, bottom, left, top],
        1 => [left, top, right, bottom],
        _ => [right, top, left, bottom],
    };
    insert(&mut lists.macros, &new, random);
}

/// Puts in a macro whose interior meets that of another: across its corner, inside it, about it,
/// or like a cross over it with no corner in it.
fn add_overlap(lists: &mut Lists, random: &mut Random) {
    let (left, bottom, right, top) = any_macro(lists, random);
    let new = match random.below(4) {
        0 => [right - 1, top - 1, right + 3, top + 3],
        1 => [left, bottom, left + 1, bottom + 1],
        2 => [left - 1, bottom - 1, right + 1, top + 1],
        _ => [left - 2, bottom, right + 2, top],
    };
    insert(&mut lists.macros, &new, random);
}

/// Puts an entry in at any position.
fn insert(list: &mut Vec<i32>, entry: &[i32], random: &mut Random) {
    let width = entry.len();
    let at = random.below(list.len() / width + 1) * width;
    list.splice(at..at, entry.iter().copied());
}

/// Adds entries of small numbers until the list is past its bound, sometimes far past.
fn fill(list: &mut Vec<i32>, bound: usize, width: usize, random: &mut Random) {
    let past = bound + random.choose(&[1, 1, 2, 5, 100]) * width;
    while list.len() < past {
        list.push(random.between(-9, 9));
    }
}

/// Puts a number in the place of any coordinate of the two lists.
fn replace(lists: &mut Lists, number: i32, random: &mut Random) {
    let at = random.below(lists.pins.len() + lists.macros.len());
    match at.checked_sub(lists.pins.len()) {
        Some(at) => lists.macros[at] = number,
        None => lists.pins[at] = number,
    }
}

/// Lists of any lengths, of numbers that are small, at the ends of the range or at the ends of 32
/// bits. Every other pair is whole and small with its macros put upright, so that the later
/// refusals and allowed nets come up too.
fn anything(random: &mut Random) -> Lists {
    let tame = random.one_in(2);
    let (pins, macros) = if tame {
        (random.choose(&[3, 6, 9]), random.choose(&[0, 4, 8, 12]))
    } else {
        (random.choose(&LENGTHS), random.choose(&LENGTHS))
    };
    let pools = random.choose(&[1, 2, 4, 7]);
    let mut numbers = |count: usize| (0..count).map(|_| any_number(random, pools)).collect();
    let mut lists = Lists {
        pins: numbers(pins),
        macros: numbers(macros),
        ..Lists::default()
    };
    if tame {
        lists.macros.chunks_exact_mut(4).for_each(put_upright);
        let loads = lists.pins.iter_mut().skip(2).step_by(Net::PIN_NUMBERS);
        loads.for_each(|load| *load = load.saturating_abs());
    }
    lists
}

/// Lengths about whole entries and about the bounds, and one beyond all of them.
const LENGTHS: [usize; 19] = [
    0, 1, 2, 3, 4, 5, 6, 7, 9, 12, 383, 384, 385, 387, 511, 512, 513, 516, 1_000,
];

/// Left not above right and bottom not above top.
fn put_upright(four: &mut [i32]) {
    for (low, high) in [(0, 2), (1, 3)] {
        if four[low] > four[high] {
            four.swap(low, high);
        }
    }
}

/// A number from the first so many of the pools below.
fn any_number(random: &mut Random, pools: usize) -> i32 {
    let bound = Net::COORDINATE;
    match random.below(pools) {
        0 => random.between(-4, 4),
        1 => random.between(-20, 20),
        2 => random.between(-bound, bound),
        3 => random.choose(&[-bound, bound]),
        4 => random.choose(&[-bound - 1, bound + 1]),
        5 => random.choose(&[i32::MIN, i32::MIN + 1, i32::MAX - 1, i32::MAX]),
        _ => random.bits() as i32,
    }
}
