//! The net file: blocks of words, the two sums, writing and reading.

use crate::lists::{unloaded, Lists};
use crate::net::{Net, Weights};

/// F1: the bytes of a block, and its words of four bytes.
pub const BLOCK_BYTES: usize = 512;
pub const BLOCK_WORDS: usize = 128;
/// "Up to 10 blocks in all": a head, 128 pins "40 a block" and 128 macros 30 a block.
pub const BLOCKS: usize = 10;

/// "Word 0 is the kind (1 head, 2 pins, 3 macros)."
const HEAD: u32 = 1;
const PINS: u32 = 2;
const MACROS: u32 = 3;
/// F24: pins with their loads.
const LOADED: u32 = 4;

/// F6: where entries begin.
const ENTRIES: usize = 4;
/// F6, F7 and F24: the words of an entry, and the entries of a full block.
const PIN_WORDS: usize = 2;
const PINS_A_BLOCK: usize = 60;
const LOADED_WORDS: usize = 3;
const LOADED_A_BLOCK: usize = 40;
const MACRO_WORDS: usize = 4;
const MACROS_A_BLOCK: usize = 30;
/// "Head words 6 and 7 of the file hold the weights", after m and k.
const HEAD_WORDS: usize = 4;
/// "In each block word 126 is the sum", "word 127 is the sum of the running sums".
const SUM: usize = 126;
const SECOND_SUM: usize = 127;

pub type Block = [u32; BLOCK_WORDS];

/// F11 and F12: what the last two words of a block have to be, by the words before them.
pub fn sums(block: &Block) -> (u32, u32) {
    let mut sum = 0u32;
    let mut second = 0u32;
    for &word in &block[..SUM] {
        sum = sum.wrapping_add(word);
        second = second.wrapping_add(sum);
    }
    (sum, second)
}

/// Puts both sums of a block right.
pub fn seal(block: &mut Block) {
    (block[SUM], block[SECOND_SUM]) = sums(block);
}

/// The words of whole blocks; bytes past the last whole block are left out.
pub fn blocks_of(bytes: &[u8]) -> Vec<Block> {
    bytes
        .chunks_exact(BLOCK_BYTES)
        .map(|chunk| {
            let mut block = [0; BLOCK_WORDS];
            for (word, four) in block.iter_mut().zip(chunk.chunks_exact(4)) {
                *word = u32::from_le_bytes([four[0], four[1], four[2], four[3]]);
            }
            block
        })
        .collect()
}

/// The bytes of blocks.
pub fn bytes_of(blocks: &[Block]) -> Vec<u8> {
    blocks
        .iter()
        .flatten()
        .flat_map(|word| word.to_le_bytes())
        .collect()
}

/// The file of two lists of whole entries with weights 1 to 8, its blocks by F13 to F15. Loads are
/// stored unless all of them are 0 (F25).
pub fn write(lists: &Lists) -> Vec<u8> {
    let mut head = [0; BLOCK_WORDS];
    head[0] = HEAD;
    head[4] = (lists.pins.len() / Net::PIN_NUMBERS) as u32;
    head[5] = (lists.macros.len() / MACRO_WORDS) as u32;
    head[6] = weight_word(lists.weights.x);
    head[7] = weight_word(lists.weights.y);
    let mut blocks = vec![head];
    let pins = lists.pins.chunks_exact(Net::PIN_NUMBERS);
    if pins.clone().all(|pin| pin[2] == 0) {
        let places: Vec<i32> = pins.flat_map(|pin| [pin[0], pin[1]]).collect();
        for chunk in places.chunks(PINS_A_BLOCK * PIN_WORDS) {
            blocks.push(list_block(PINS, blocks.len(), PIN_WORDS, chunk));
        }
    } else {
        for chunk in lists.pins.chunks(LOADED_A_BLOCK * LOADED_WORDS) {
            blocks.push(list_block(LOADED, blocks.len(), LOADED_WORDS, chunk));
        }
    }
    for chunk in lists.macros.chunks(MACROS_A_BLOCK * MACRO_WORDS) {
        blocks.push(list_block(MACROS, blocks.len(), MACRO_WORDS, chunk));
    }
    blocks.iter_mut().for_each(seal);
    bytes_of(&blocks)
}

/// "0 standing for 1". A weight outside 1 to 8 has no word.
fn weight_word(weight: i32) -> u32 {
    match weight {
        1 => 0,
        2..=8 => weight as u32,
        _ => panic!("the weight {weight} has no word"),
    }
}

/// F18: the weight that is stored as a word, or none where no weight is.
fn weight_of(word: u32) -> Option<i32> {
    match word {
        0 => Some(1),
        2..=8 => Some(word as i32),
        _ => None,
    }
}

/// A block of entries, its sums not yet put right. "Coordinates are two's complement."
fn list_block(kind: u32, number: usize, entry_words: usize, numbers: &[i32]) -> Block {
    let mut block = [0; BLOCK_WORDS];
    block[0] = kind;
    block[1] = number as u32;
    block[2] = (numbers.len() / entry_words) as u32;
    for (word, &coordinate) in block[ENTRIES..].iter_mut().zip(numbers) {
        *word = coordinate as u32;
    }
    block
}

/// The lists and the weights of a file, or its refusal 1, 2 or 3. The net that they are is not
/// checked here.
pub fn read(bytes: &[u8]) -> Result<Lists, u32> {
    // "1: not whole blocks", none, or more than 9.
    let count = bytes.len() / BLOCK_BYTES;
    if !bytes.len().is_multiple_of(BLOCK_BYTES) || !(1..=BLOCKS).contains(&count) {
        return Err(1);
    }
    let blocks = blocks_of(bytes);
    // "2: a block's word 126 or 127 is wrong."
    if blocks
        .iter()
        .any(|block| sums(block) != (block[SUM], block[SECOND_SUM]))
    {
        return Err(2);
    }
    layout(&blocks).ok_or(3)
}

/// C3: the lists, or none where the blocks are not laid out by F2 to F18 and F24 to F26.
fn layout(blocks: &[Block]) -> Option<Lists> {
    let mut rest = blocks.iter().enumerate();
    let (_, head) = rest.next()?;
    entries(head, HEAD, 0, 0, HEAD_WORDS)?;
    // The head's counts may be anything up to 2^32 − 1, which 64 bits hold with room to spare.
    let mut pins_left = u64::from(head[4]);
    let mut macros_left = u64::from(head[5]);
    let mut lists = Lists {
        weights: Weights {
            x: weight_of(head[6])?,
            y: weight_of(head[7])?,
        },
        ..Lists::default()
    };
    // The head does not tell how the pins are stored; the first of their blocks does, and all others
    // are like it.
    let loaded = blocks.get(1).is_some_and(|block| block[0] == LOADED);
    let (kind, words, a_block) = if loaded {
        (LOADED, LOADED_WORDS, LOADED_A_BLOCK)
    } else {
        (PINS, PIN_WORDS, PINS_A_BLOCK)
    };
    for (number, block) in rest {
        if pins_left > 0 {
            let count = pins_left.min(a_block as u64);
            let used = count as usize * words;
            lists
                .pins
                .extend(entries(block, kind, number, count, used)?);
            pins_left -= count;
        } else if macros_left > 0 {
            let count = macros_left.min(MACROS_A_BLOCK as u64);
            let used = count as usize * MACRO_WORDS;
            lists
                .macros
                .extend(entries(block, MACROS, number, count, used)?);
            macros_left -= count;
        } else {
            // A block that neither list has entries for.
            return None;
        }
    }
    if loaded {
        // F25: without a load the pins belong into blocks of kind 2.
        let pins = lists.pins.chunks_exact(LOADED_WORDS);
        if pins.clone().all(|pin| pin[2] == 0) {
            return None;
        }
    } else {
        lists.pins = unloaded(&lists.pins);
    }
    (pins_left == 0 && macros_left == 0).then_some(lists)
}

/// The used words from word 4 on, where the block is of this kind, number and count and word 3
/// and "every other word up to 125 is 0".
fn entries(block: &Block, kind: u32, number: usize, count: u64, used: usize) -> Option<Vec<i32>> {
    let right = block[0] == kind
        && u64::from(block[1]) == number as u64
        && u64::from(block[2]) == count
        && block[3] == 0
        && block[ENTRIES + used..SUM].iter().all(|&word| word == 0);
    right.then(|| {
        block[ENTRIES..ENTRIES + used]
            .iter()
            .map(|&word| word as i32)
            .collect()
    })
}
