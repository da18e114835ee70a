//! Net files that are not as they should be.

use super::loads::with_loads;
use super::nets::{net, Kind};
use super::{hostile, kinds, weights, Hostile};
use crate::lists::{unloaded, Lists};
use crate::net::Weights;
use crate::netfile::{self, Block, BLOCKS, BLOCK_BYTES, BLOCK_WORDS};
use crate::random::Random;

kinds! {
    /// A kind of damaged net file.
    Damage {
        WordChanged "word-changed" "one word changed and the sums put right again",
        SumWrong "sum-wrong" "one of the two sums of a block is wrong",
        BitFlipped "bit-flipped" "one bit flipped, no sum put right",
        WordsExchanged "words-exchanged" "two unequal words of a block exchanged, no sum put right",
        BlocksSwapped "blocks-swapped" "two blocks swapped, their numbers put right or not",
        BlockDoubled "block-doubled" "one block stands twice, the numbers put right or not",
        BlockMissing "block-missing" "one block left out, the numbers put right or not",
        Cut "cut" "cut short at any length",
        TooLong "too-long" "more than ten blocks, or bytes past the last block",
        CountsAbove "counts-above" "a right layout with more pins or macros than a net may have",
        HeadCounts "head-counts" "the head's counts are others, up to the greatest word",
        AllZero "all-zero" "blocks of zero words alone",
        AllOnes "all-ones" "blocks of one bits alone",
        RandomBytes "random-bytes" "any bytes, at any length",
        RandomWords "random-words" "blocks of any words with both sums right",
        NetRefused "net-refused" "a right file of a net that is refused with 13 to 17",
        WeightWords "weight-words" "one or both weight words of the head are others, the sums right",
        LoadsZero "loads-zero" "blocks of kind 4 whose loads are all 0, or blocks of pins of both kinds",
    }
}

/// What the file has besides its lists.
#[derive(Clone, Copy)]
struct Like {
    weights: Weights,
    loaded: bool,
}

impl Like {
    /// The lists with these weights, and loads where there are to be some.
    fn lists(self, lists: Lists, random: &mut Random) -> Lists {
        let lists = Lists {
            weights: self.weights,
            ..lists
        };
        if self.loaded {
            with_loads(lists, random)
        } else {
            lists
        }
    }
}

/// The bytes of a kind and a seed, of a file with weights 1 and 1.
pub fn damaged(kind: Damage, seed: u64) -> Vec<u8> {
    let (weights, loaded) = (Weights::ONE, false);
    made(kind, seed, Like { weights, loaded })
}

/// The same of a file with weights of all sorts.
pub fn damaged_weighted(kind: Damage, seed: u64) -> Vec<u8> {
    let (weights, loaded) = (weights::weights(&mut kind.random(!seed)), false);
    made(kind, seed, Like { weights, loaded })
}

/// The same of a file with loads, and with weights of all sorts.
pub fn damaged_loaded(kind: Damage, seed: u64) -> Vec<u8> {
    let (weights, loaded) = (weights::weights(&mut kind.random(!seed)), true);
    made(kind, seed, Like { weights, loaded })
}

fn made(kind: Damage, seed: u64, like: Like) -> Vec<u8> {
    let random = &mut kind.random(seed);
    match kind {
        Damage::WordChanged => word_changed(random, like),
        Damage::SumWrong => sum_wrong(random, like),
        Damage::BitFlipped => bit_flipped(random, like),
        Damage::WordsExchanged => words_exchanged(random, like),
        Damage::BlocksSwapped => blocks_swapped(random, like),
        Damage::BlockDoubled => block_doubled(random, like),
        Damage::BlockMissing => block_missing(random, like),
        Damage::Cut => cut(random, like),
        Damage::TooLong => too_long(random, like),
        Damage::CountsAbove => counts_above(random, like),
        Damage::HeadCounts => head_counts(random, like),
        Damage::AllZero => vec![0; any_length(random)],
        Damage::AllOnes => vec![255; any_length(random)],
        Damage::RandomBytes => random_bytes(random),
        Damage::RandomWords => random_words(random),
        Damage::NetRefused => net_refused(random, like),
        Damage::WeightWords => weight_words(random, like),
        Damage::LoadsZero => loads_zero(random, like),
    }
}

/// The blocks of an allowed net's file, of two to ten blocks.
fn file(random: &mut Random, like: Like) -> Vec<Block> {
    let kind = random.choose(&[
        Kind::TinyFour,
        Kind::SideBySide,
        Kind::Far,
        Kind::Largest,
        Kind::NoMacros,
        Kind::GridOne,
    ]);
    let lists = net(kind, random.bits());
    netfile::blocks_of(&netfile::write(&like.lists(lists, random)))
}

/// A word unlike the one given: close to it, small, or any.
fn other_word(random: &mut Random, word: u32) -> u32 {
    let other = match random.below(5) {
        0 => word.wrapping_add(1),
        1 => word.wrapping_sub(1),
        2 => random.below(140) as u32,
        3 => u32::MAX,
        _ => random.bits() as u32,
    };
    if other == word {
        word ^ 1
    } else {
        other
    }
}

/// The first words carry the layout, so they are struck as often as all others together.
fn word_changed(random: &mut Random, like: Like) -> Vec<u8> {
    let mut blocks = file(random, like);
    let block = random.below(blocks.len());
    let word = if random.one_in(2) {
        random.below(6)
    } else {
        random.below(BLOCK_WORDS - 2)
    };
    blocks[block][word] = other_word(random, blocks[block][word]);
    netfile::seal(&mut blocks[block]);
    netfile::bytes_of(&blocks)
}

fn sum_wrong(random: &mut Random, like: Like) -> Vec<u8> {
    let mut blocks = file(random, like);
    let block = random.below(blocks.len());
    let word = BLOCK_WORDS - 1 - random.below(2);
    blocks[block][word] = other_word(random, blocks[block][word]);
    netfile::bytes_of(&blocks)
}

fn bit_flipped(random: &mut Random, like: Like) -> Vec<u8> {
    let mut bytes = netfile::bytes_of(&file(random, like));
    let byte = random.below(bytes.len());
    bytes[byte] ^= 1 << random.below(8);
    bytes
}

/// The first sum stays right; the running sums tell.
fn words_exchanged(random: &mut Random, like: Like) -> Vec<u8> {
    let mut blocks = file(random, like);
    let block = random.below(blocks.len());
    loop {
        let (one, other) = (random.below(BLOCK_WORDS - 2), random.below(BLOCK_WORDS - 2));
        if blocks[block][one] != blocks[block][other] {
            blocks[block].swap(one, other);
            return netfile::bytes_of(&blocks);
        }
    }
}

fn blocks_swapped(random: &mut Random, like: Like) -> Vec<u8> {
    let mut blocks = file(random, like);
    let one = random.below(blocks.len());
    let other = (one + 1 + random.below(blocks.len() - 1)) % blocks.len();
    blocks.swap(one, other);
    maybe_renumbered(random, blocks)
}

fn block_doubled(random: &mut Random, like: Like) -> Vec<u8> {
    let mut blocks = file(random, like);
    let block = random.below(blocks.len());
    blocks.insert(block, blocks[block]);
    maybe_renumbered(random, blocks)
}

fn block_missing(random: &mut Random, like: Like) -> Vec<u8> {
    let mut blocks = file(random, like);
    blocks.remove(random.below(blocks.len()));
    maybe_renumbered(random, blocks)
}

/// The bytes of blocks, which every other time get the numbers of where they now stand.
fn maybe_renumbered(random: &mut Random, mut blocks: Vec<Block>) -> Vec<u8> {
    if random.one_in(2) {
        for (number, block) in blocks.iter_mut().enumerate() {
            block[1] = number as u32;
            netfile::seal(block);
        }
    }
    netfile::bytes_of(&blocks)
}

/// At any length, and at a whole block as often as not.
fn cut(random: &mut Random, like: Like) -> Vec<u8> {
    let mut bytes = netfile::bytes_of(&file(random, like));
    let length = if random.one_in(2) {
        random.below(bytes.len())
    } else {
        random.below(bytes.len() / BLOCK_BYTES) * BLOCK_BYTES
    };
    bytes.truncate(length);
    bytes
}

/// A right layout of eleven blocks or more, or a right file with bytes after it.
fn too_long(random: &mut Random, like: Like) -> Vec<u8> {
    if random.one_in(2) {
        let pins = 60 * BLOCKS + random.below(500);
        return netfile::write(&numbers(random, (pins, 0), like));
    }
    let mut bytes = netfile::bytes_of(&file(random, like));
    let longer = bytes.len() + 1 + random.below(BLOCK_BYTES - 1);
    bytes.resize(longer, 0);
    bytes
}

/// Ten blocks hold 540 pins, or 360 with loads, or 270 macros, or some of each.
fn counts_above(random: &mut Random, like: Like) -> Vec<u8> {
    let a_block = if like.loaded { 40 } else { 60 };
    let (pins, macros) = match random.below(5) {
        0 => (129 + random.below(9 * a_block - 128), 0),
        1 => (129 + random.below(4 * a_block - 128), 1 + random.below(150)),
        2 => (1 + random.below(a_block), 129 + random.below(112)),
        3 => (121 + random.below(8), 129 + random.below(22)),
        _ => (0, random.below(271)),
    };
    netfile::write(&numbers(random, (pins, macros), like))
}

/// Lists of so many entries of small numbers.
fn numbers(random: &mut Random, (pins, macros): (usize, usize), like: Like) -> Lists {
    let mut list =
        |count: usize| -> Vec<i32> { (0..count).map(|_| random.between(-99, 99)).collect() };
    let lists = Lists {
        pins: unloaded(&list(2 * pins)),
        macros: list(4 * macros),
        ..Lists::default()
    };
    like.lists(lists, random)
}

/// Either count, or both, with the sums right; now and then the head stands alone.
fn head_counts(random: &mut Random, like: Like) -> Vec<u8> {
    let mut blocks = file(random, like);
    if random.one_in(4) {
        blocks.truncate(1);
    }
    let which = random.choose(&[[4, 4], [5, 5], [4, 5]]);
    for word in which {
        blocks[0][word] = match random.below(4) {
            0 => random.choose(&[0, 1, 60, 61, 128, 129, 480, u32::MAX - 1, u32::MAX]),
            // So many that the blocks or bytes they need are beyond 32 bits.
            1 => random.choose(&[1 << 31, (1 << 31) + 60, u32::MAX - 58, 1 << 26]),
            _ => other_word(random, blocks[0][word]),
        };
    }
    netfile::seal(&mut blocks[0]);
    netfile::bytes_of(&blocks)
}

/// Whole blocks more often than not, some of them too many.
fn any_length(random: &mut Random) -> usize {
    if random.one_in(4) {
        random.below(BLOCK_BYTES * (BLOCKS + 2))
    } else {
        random.below(BLOCKS + 2) * BLOCK_BYTES
    }
}

fn random_bytes(random: &mut Random) -> Vec<u8> {
    let length = any_length(random);
    (0..length).map(|_| random.bits() as u8).collect()
}

/// Words that are small as often as not, so that kinds, numbers and counts come close to right.
fn random_words(random: &mut Random) -> Vec<u8> {
    let mut blocks = vec![[0; BLOCK_WORDS]; 1 + random.below(BLOCKS)];
    for block in &mut blocks {
        for word in block.iter_mut() {
            *word = if random.one_in(2) {
                random.below(4) as u32
            } else {
                random.bits() as u32
            };
        }
        netfile::seal(block);
    }
    netfile::bytes_of(&blocks)
}

/// A list that isn't whole entries has no file, and one that is too long belongs to counts above.
fn net_refused(random: &mut Random, like: Like) -> Vec<u8> {
    let kind = if like.loaded && random.one_in(8) {
        Hostile::LoadOutside
    } else {
        random.choose(&[
            Hostile::JustOutOfRange,
            Hostile::Extreme,
            Hostile::FlatMacro,
            Hostile::InsideOut,
            Hostile::PinTwice,
            Hostile::MacroTwice,
            Hostile::Overlap,
            Hostile::PinInside,
        ])
    };
    let lists = hostile(kind, random.bits());
    // A load that may be what is wrong stays.
    let in_a_load = [
        Hostile::JustOutOfRange,
        Hostile::Extreme,
        Hostile::LoadOutside,
    ];
    let loaded = like.loaded && !in_a_load.contains(&kind);
    netfile::write(&Like { loaded, ..like }.lists(lists, random))
}

/// A word that stands for a weight, a written 1, one above 8, or any, with the sums right.
fn weight_words(random: &mut Random, like: Like) -> Vec<u8> {
    let mut blocks = file(random, like);
    for word in random.choose(&[[6, 6], [7, 7], [6, 7]]) {
        blocks[0][word] = match random.below(4) {
            0 => random.choose(&[0, 2, 3, 4, 5, 6, 7, 8]),
            1 => 1,
            2 => random.choose(&[9, 10, 16, 256 + 2, 1 << 16, 1 << 31, u32::MAX - 6, u32::MAX]),
            _ => other_word(random, blocks[0][word]),
        };
    }
    netfile::seal(&mut blocks[0]);
    netfile::bytes_of(&blocks)
}

/// A right file but for this: its blocks of pins are of kind 4 and all their loads are 0, or one of
/// them is of the other kind.
fn loads_zero(random: &mut Random, like: Like) -> Vec<u8> {
    let places = (0..random.between(1, 128)).flat_map(|x| [x, random.between(-9, 9)]);
    let row = Lists {
        pins: unloaded(&places.collect::<Vec<i32>>()),
        ..Lists::default()
    };
    let loaded = true;
    let lists = Like { loaded, ..like }.lists(row, random);
    let mut blocks = netfile::blocks_of(&netfile::write(&lists));
    let pins: Vec<usize> = (0..blocks.len()).filter(|&b| blocks[b][0] == 4).collect();
    if random.one_in(2) {
        for &block in &pins {
            let count = blocks[block][2] as usize;
            (0..count).for_each(|entry| blocks[block][4 + 3 * entry + 2] = 0);
            netfile::seal(&mut blocks[block]);
        }
    } else {
        let block = random.choose(&pins);
        blocks[block][0] = 2;
        netfile::seal(&mut blocks[block]);
    }
    netfile::bytes_of(&blocks)
}
