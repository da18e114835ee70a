//! What is wrong with the bytes of a net file, block by block. That something is the proved reader says; this only finds where.

use calzundi::{Macro, Net, Pin, Refusal, Weights};
use calzundi::{BLOCK_BYTES, LOADED_A_BLOCK, LONGEST_FILE, MACROS_A_BLOCK, PINS_A_BLOCK, WEIGHT};

use crate::blame::{Blame, Reason};

const WORDS: usize = BLOCK_BYTES / 4;
const FIRST_ENTRY: usize = 4;
const SUMS: usize = WORDS - 2;
const HEAD: u32 = 1;
const PINS: u32 = 2;
const MACROS: u32 = 3;
const LOADED: u32 = 4;

/// The words of each whole block.
fn blocks(bytes: &[u8]) -> Vec<Vec<u32>> {
    let word = |four: &[u8]| u32::from_le_bytes([four[0], four[1], four[2], four[3]]);
    let blocks = bytes.chunks_exact(BLOCK_BYTES);
    blocks
        .map(|block| block.chunks_exact(4).map(word).collect())
        .collect()
}

/// Whether bytes are a net file or what is left of one, cut or damaged: the head's kind is still there, or that of a block at its place.
pub fn is_left(bytes: &[u8]) -> bool {
    let is_block = |(number, words): (usize, &Vec<u32>)| {
        (PINS..=LOADED).contains(&words[0]) && words[1] as usize == number
    };
    let later = blocks(bytes);
    bytes.starts_with(&HEAD.to_le_bytes()) || later.iter().enumerate().skip(1).any(is_block)
}

/// What is to blame for a refusal by 1, 2 or 3.
pub fn blamed(bytes: &[u8], refusal: Refusal) -> Blame {
    let reasons = match refusal {
        Refusal::Length => vec![format!(
            "it has {} bytes; a net file has {BLOCK_BYTES} for each of 1 to {} blocks",
            bytes.len(),
            LONGEST_FILE / BLOCK_BYTES
        )],
        Refusal::Sums => wrong_sums(bytes),
        _ => wrong_layout(&blocks(bytes)).into_iter().collect(),
    };
    let reasons = reasons.into_iter().map(|said| Reason::of(said, &[]));
    Blame::new(refusal, reasons.collect())
}

fn wrong_sums(bytes: &[u8]) -> Vec<String> {
    let mut found = Vec::new();
    for (number, words) in blocks(bytes).iter().enumerate() {
        let (mut sum, mut sums) = (0u32, 0u32);
        for word in &words[..SUMS] {
            sum = sum.wrapping_add(*word);
            sums = sums.wrapping_add(sum);
        }
        for (at, right) in [(SUMS, sum), (SUMS + 1, sums)] {
            if words[at] != right {
                let is = words[at];
                found.push(format!(
                    "block {number}: word {at} is {is} and should be {right}"
                ));
            }
        }
    }
    found
}

/// The first word that is not as the blocks before it ask.
fn wrong_layout(blocks: &[Vec<u32>]) -> Option<String> {
    let head = blocks.first()?;
    let (m, k) = (head[4] as usize, head[5] as usize);
    // The first block of pins tells how they are stored.
    let pins = match blocks.get(1).map(|words| words[0]) {
        Some(LOADED) => (LOADED, m, LOADED_A_BLOCK, 3),
        _ => (PINS, m, PINS_A_BLOCK, 2),
    };
    let lists = [pins, (MACROS, k, MACROS_A_BLOCK, 4)];
    let mut expected = vec![(HEAD, 0, 0)];
    for (kind, count, full, width) in lists {
        // A count that no file has room for shows as blocks that are missing.
        for block in 0..count.div_ceil(full).min(LONGEST_FILE) {
            expected.push((kind, full.min(count - block * full), width));
        }
    }
    for (number, (words, (kind, count, width))) in blocks.iter().zip(&expected).enumerate() {
        let wanted = [*kind, number as u32, *count as u32, 0];
        let names = [
            "the kind",
            "the block's number",
            "the count of entries",
            "0",
        ];
        for (at, (right, name)) in wanted.iter().zip(names).enumerate() {
            if words[at] != *right {
                let is = words[at];
                return Some(format!(
                    "block {number}: word {at}, {name}, is {is} and should be {right}"
                ));
            }
        }
        let used = if *kind == HEAD {
            8
        } else {
            FIRST_ENTRY + count * width
        };
        if let Some(at) = (used..SUMS).find(|&at| words[at] != 0) {
            let is = words[at];
            return Some(format!("block {number}: word {at} is {is} and should be 0"));
        }
    }
    if blocks.len() != expected.len() {
        return Some(format!(
            "the head's {m} pins and {k} macros have {} blocks, and the file has {}",
            expected.len(),
            blocks.len()
        ));
    }
    let loads = blocks.iter().filter(|words| words[0] == LOADED);
    let mut loads = loads.flat_map(|words| words[FIRST_ENTRY..SUMS].chunks_exact(3));
    if pins.0 == LOADED && loads.all(|pin| pin[2] == 0) {
        return Some("block 1: its kind is 4, for pins with loads, and all loads are 0".into());
    }
    let (x, y) = (head[6], head[7]);
    Some(format!(
        "block 0: words 6 and 7, the weights, are {x} and {y}; each is 2 to {WEIGHT}, or 0, which stands for 1"
    ))
}

/// The net that the blocks hold, as far as they do: to say what is wrong with it.
pub fn net_in(bytes: &[u8]) -> Net {
    let mut net = Net::default();
    for words in blocks(bytes) {
        let count = words[2] as usize;
        let entries = words[FIRST_ENTRY..SUMS].iter().map(|&word| word as i32);
        let entries: Vec<i32> = entries.collect();
        match words[0] {
            HEAD => {
                let weight = |word: u32| if word == 0 { 1 } else { word as i32 };
                let (x, y) = (weight(words[6]), weight(words[7]));
                net.weights = Weights { x, y };
            }
            PINS => {
                let pins = entries.chunks_exact(2).take(count);
                net.pins.extend(pins.map(|pin| Pin::new(pin[0], pin[1])));
            }
            LOADED => {
                let pins = entries.chunks_exact(3).take(count);
                net.pins
                    .extend(pins.map(|pin| Pin::new(pin[0], pin[1]).with_load(pin[2])));
            }
            MACROS => {
                let macros = entries.chunks_exact(4).take(count);
                net.macros
                    .extend(macros.map(|m| Macro::new(m[0], m[1], m[2], m[3])));
            }
            _ => {}
        }
    }
    net
}
