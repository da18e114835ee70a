//! The net file: layout word by word, round trips, damaged files.

mod common;

use reference::generate::{
    damaged, damaged_loaded, damaged_weighted, hostile, loaded, Damage, Hostile,
};
use reference::lists::{unloaded, Lists};
use reference::net::{check, Weights};
use reference::netfile::{blocks_of, bytes_of, read, seal, sums, write, Block};
use reference::operations::read_file;

/// What the operation answers for bytes, with space enough lent.
fn answer(bytes: &[u8]) -> Result<(usize, usize, Weights), u32> {
    read_file(bytes, &mut [0; 384], &mut [0; 512])
}

fn head(m: u32, k: u32) -> Block {
    let mut block = [0; 128];
    block[0] = 1;
    block[4] = m;
    block[5] = k;
    seal(&mut block);
    block
}

#[test]
fn words_of_a_small_file() {
    let bytes = write(&Lists {
        pins: vec![1, -2, 0, 300, 4, 0],
        macros: vec![5, 6, 7, 8],
        weights: Weights { x: 3, y: 1 },
    });
    assert_eq!(bytes.len(), 3 * 512);
    assert_eq!(bytes[..8], [1, 0, 0, 0, 0, 0, 0, 0]);
    assert_eq!(bytes[512 + 20..512 + 28], [254, 255, 255, 255, 44, 1, 0, 0]);
    let blocks = blocks_of(&bytes);
    assert_eq!(blocks[0][..9], [1, 0, 0, 0, 2, 1, 3, 0, 0]);
    assert_eq!(blocks[1][..9], [2, 1, 2, 0, 1, u32::MAX - 1, 300, 4, 0]);
    assert_eq!(blocks[2][..9], [3, 2, 1, 0, 5, 6, 7, 8, 0]);
    // The head has 1 in word 0, 2 in word 4, 1 in word 5, 3 in word 6 and 0, which stands for 1, in
    // word 7; a word in place i is in 126 − i of the running sums.
    assert_eq!(blocks[0][126..], [7, 126 + 2 * 122 + 121 + 3 * 120]);
    // −2 and 300 wrap around 2^32.
    assert_eq!(blocks[1][126], 2 + 1 + 2 + 1 + 298 + 4);
}

#[test]
fn sums_wrap() {
    let block = [u32::MAX; 128];
    let triangle = 126 * 127 / 2;
    assert_eq!(
        sums(&block),
        (0u32.wrapping_sub(126), 0u32.wrapping_sub(triangle))
    );
}

/// 128 pins are blocks of 60, 60 and 8, or with loads of 40, 40, 40 and 8, 128 macros of 30, 30, 30, 30 and 8: "up to 10 blocks in all".
#[test]
fn the_longest_file() {
    let fronts = |pins: Vec<i32>| -> Vec<[u32; 3]> {
        let file = write(&Lists {
            pins,
            macros: (0..512).collect(),
            ..Lists::default()
        });
        let blocks = blocks_of(&file);
        blocks.iter().map(|b| [b[0], b[1], b[2]]).collect()
    };
    let macros = |from: u32| {
        [30, 30, 30, 30, 8]
            .iter()
            .zip(from..)
            .map(|(n, k)| [3, k, *n])
            .collect::<Vec<_>>()
    };
    let places: Vec<i32> = (0..256).collect();
    let without = [
        &[[1, 0, 0], [2, 1, 60], [2, 2, 60], [2, 3, 8]][..],
        &macros(4),
    ]
    .concat();
    assert_eq!(fronts(unloaded(&places)), without);
    let with = [
        &[[1, 0, 0], [4, 1, 40], [4, 2, 40], [4, 3, 40], [4, 4, 8]][..],
        &macros(5),
    ]
    .concat();
    assert_eq!(fronts((0..384).collect()), with);
}

/// With loads and without.
#[test]
fn files_read_back() {
    for (name, lists) in common::nets(20) {
        let with = loaded(&lists, lists.pins.len() as u64);
        for lists in [lists, with] {
            let bytes = write(&lists);
            assert_eq!(read(&bytes), Ok(lists.clone()), "{name}");
            assert_eq!(bytes_of(&blocks_of(&bytes)), bytes, "{name}");
            let (m, k) = (lists.pins.len() / 3, lists.macros.len() / 4);
            assert_eq!(answer(&bytes), Ok((m, k, lists.weights)), "{name}");
        }
    }
}

/// C3: blocks of kind 4 without any load are refused before 11 to 18 and by their words; a pin block
/// of each kind in one file is 3 too; loads out of range are 13.
#[test]
fn kinds_of_pin_blocks() {
    let file = |pins: Vec<i32>| {
        blocks_of(&write(&Lists {
            pins,
            ..Lists::default()
        }))
    };
    let with_load = |load: u32| {
        let mut blocks = file(vec![5, 5, 1]);
        blocks[1][6] = load;
        seal(&mut blocks[1]);
        bytes_of(&blocks)
    };
    assert_eq!(answer(&with_load(1)), Ok((1, 0, Weights::ONE)));
    assert_eq!(answer(&with_load(1_000_000)), Ok((1, 0, Weights::ONE)));
    assert_eq!(answer(&with_load(0)), Err(3));
    assert_eq!(answer(&with_load(1_000_001)), Err(13));
    assert_eq!(answer(&with_load(u32::MAX)), Err(13));
    let far = |load: i32| bytes_of(&file(vec![2_000_000, 5, load]));
    assert_eq!(answer(&far(1)), Err(13));
    let entries = |m: i32| (0..m).flat_map(|x| [x, 0, 1]).collect::<Vec<i32>>();
    for (m, blocks) in [(40, 2), (41, 3), (60, 3), (61, 3), (64, 3)] {
        assert_eq!(file(entries(m)).len(), blocks, "{m} pins with loads");
        let bare: Vec<i32> = (0..m).flat_map(|x| [x, 0, 0]).collect();
        assert_eq!(file(bare).len(), 1 + (m as usize).div_ceil(60), "{m} pins");
    }
    let mut blocks = file(entries(41));
    let other = file(vec![40, 0, 0]);
    blocks[2] = other[1];
    blocks[2][1] = 2;
    seal(&mut blocks[2]);
    assert_eq!(answer(&bytes_of(&blocks)), Err(3));
}

/// A file of one pin whose head has these two weight words, the sums right.
fn with_weight_words(x: u32, y: u32) -> Vec<u8> {
    let mut blocks = blocks_of(&write(&Lists {
        pins: vec![5, 5, 0],
        ..Lists::default()
    }));
    (blocks[0][6], blocks[0][7]) = (x, y);
    seal(&mut blocks[0]);
    bytes_of(&blocks)
}

/// F17 and F18: the head's words for the weights, and C3 for those that no writer stores.
#[test]
fn weight_words() {
    assert_eq!(answer(&with_weight_words(1, 0)), Err(3));
    assert_eq!(answer(&with_weight_words(9, 0)), Err(3));
    let weight = |word: u32| match word {
        0 => Some(1),
        2..=8 => Some(word as i32),
        _ => None,
    };
    let beyond = [9, 10, 256 + 2, 1 << 16, 1 << 31, u32::MAX - 7, u32::MAX];
    let words: Vec<u32> = (0..=8).chain(beyond).collect();
    for &one in &words {
        for &other in &words {
            let bytes = with_weight_words(one, other);
            let expected = match (weight(one), weight(other)) {
                (Some(x), Some(y)) => Ok((1, 0, Weights { x, y })),
                _ => Err(3),
            };
            assert_eq!(answer(&bytes), expected, "words {one} and {other}");
            if let Ok(lists) = read(&bytes) {
                assert_eq!(write(&lists), bytes, "words {one} and {other}");
            }
        }
    }
}

/// "With both weights 1" a file has 0 in both words, as it had before there were weights.
#[test]
fn weights_of_one_are_zero_words() {
    for (name, lists) in common::nets(6) {
        let bytes = write(&Lists {
            weights: Weights::ONE,
            ..lists.clone()
        });
        assert_eq!(blocks_of(&bytes)[0][6..126], [0; 120], "{name}");
        let weighted = write(&lists);
        assert_eq!(bytes == weighted, lists.weights == Weights::ONE, "{name}");
        assert_eq!(bytes[512..], weighted[512..], "{name}");
    }
}

/// Weights that the check refuses have no file, so that no other net's file passes for theirs.
#[test]
#[should_panic(expected = "the weight 0 has no word")]
fn a_weight_outside_has_no_word() {
    write(&Lists {
        pins: vec![5, 5, 0],
        weights: Weights { x: 0, y: 1 },
        ..Lists::default()
    });
}

#[test]
fn lengths_come_first() {
    for blocks in [0, 11, 12, 100] {
        assert_eq!(answer(&vec![1; 512 * blocks]), Err(1));
    }
    assert_eq!(answer(&[1; 512 * 10]), Err(2));
    for length in [1, 511, 513, 3071, 3073, 4607, 4609, 5119, 5121] {
        assert_eq!(answer(&vec![0; length]), Err(1));
    }
}

/// A sum wrong in the last block goes before a layout wrong in the first.
#[test]
fn sums_come_before_the_layout() {
    let mut blocks = blocks_of(&write(&Lists {
        pins: vec![1, 1, 0],
        ..Lists::default()
    }));
    blocks[0][0] = 9;
    seal(&mut blocks[0]);
    assert_eq!(answer(&bytes_of(&blocks)), Err(3));
    blocks[1][127] ^= 1;
    assert_eq!(answer(&bytes_of(&blocks)), Err(2));
}

#[test]
fn a_head_alone() {
    assert_eq!(answer(&bytes_of(&[head(0, 0)])), Err(11));
    for (m, k) in [
        (1, 0),
        (0, 1),
        (u32::MAX, 0),
        (0, u32::MAX),
        (u32::MAX, u32::MAX),
    ] {
        assert_eq!(answer(&bytes_of(&[head(m, k)])), Err(3));
    }
}

/// Every word of every block, changed with the sums right, makes another net or a refusal, and
/// all words but the entries' and the weights' make it 3.
#[test]
fn every_word_counts() {
    let lists = Lists {
        pins: vec![0, 0, 0, 9, 9, 0],
        macros: vec![1, 1, 2, 2],
        ..Lists::default()
    };
    let blocks = blocks_of(&write(&lists));
    // In the head the two weight words.
    let entries = [6..8, 4..8, 4..8];
    for (number, block) in blocks.iter().enumerate() {
        for word in 0..126 {
            let mut changed = *block;
            changed[word] ^= 2;
            seal(&mut changed);
            let mut file = blocks.clone();
            file[number] = changed;
            match read(&bytes_of(&file)) {
                Ok(read) => assert!(entries[number].contains(&word) && read != lists),
                Err(refusal) => {
                    assert_eq!(refusal, 3);
                    assert!(!entries[number].contains(&word));
                }
            }
        }
    }
}

/// The refusals that a kind of damage may lead to, of a file with loads or without; 0 stands for a file that is still right. One block more
/// is too long only where there may be ten.
fn outcomes(kind: Damage, loaded: bool) -> &'static [u32] {
    match kind {
        Damage::WordChanged => &[0, 3, 13, 14, 15, 16, 17],
        Damage::WeightWords => &[0, 3],
        Damage::LoadsZero => &[3],
        Damage::SumWrong | Damage::BitFlipped | Damage::WordsExchanged => &[2],
        Damage::BlocksSwapped => &[0, 3],
        Damage::BlockDoubled if !loaded => &[3],
        Damage::BlockDoubled | Damage::Cut | Damage::AllZero => &[1, 3],
        Damage::BlockMissing | Damage::RandomWords => &[3],
        Damage::TooLong => &[1],
        Damage::CountsAbove => &[11, 12],
        Damage::HeadCounts => &[0, 3, 11],
        Damage::AllOnes | Damage::RandomBytes => &[1, 2],
        Damage::NetRefused => &[13, 14, 15, 16, 17],
    }
}

/// Each kind of damage leads to what it names and, over many seeds, to each of it: never to 18.
#[test]
fn damage_leads_to_what_it_names() {
    type Maker = fn(Damage, u64) -> Vec<u8>;
    let makers: [(Maker, bool); 3] = [
        (damaged, false),
        (damaged_weighted, false),
        (damaged_loaded, true),
    ];
    for (made, loaded) in makers {
        for &kind in Damage::ALL {
            let mut seen = Vec::new();
            for seed in 0..1_500 {
                let outcome = match answer(&made(kind, seed)) {
                    Ok(_) => 0,
                    Err(refusal) => refusal,
                };
                if !seen.contains(&outcome) {
                    seen.push(outcome);
                }
            }
            seen.sort();
            assert_eq!(seen, outcomes(kind, loaded), "{}", kind.name());
        }
    }
}

/// A file that is read is, byte for byte, the one that its lists are written to.
#[test]
fn only_written_files_are_read() {
    let mut right = 0;
    for &kind in Damage::ALL {
        for seed in 0..300 {
            for bytes in [damaged_weighted(kind, seed), damaged_loaded(kind, seed)] {
                if let Ok(lists) = read(&bytes) {
                    assert_eq!(write(&lists), bytes, "{} {seed}", kind.name());
                    right += 1;
                }
            }
        }
    }
    assert!(right > 200, "only {right} files were read");
}

/// A file of a refused net is refused with the net's own number.
#[test]
fn the_net_is_checked_last() {
    for kind in [
        Hostile::JustOutOfRange,
        Hostile::Overlap,
        Hostile::PinInside,
    ] {
        for seed in 0..50 {
            let lists = hostile(kind, seed);
            let refusal = check(&lists.pins, &lists.macros, lists.weights).unwrap_err();
            assert_eq!(answer(&write(&lists)), Err(refusal));
        }
    }
}
