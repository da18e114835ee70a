//! A short fingerprint of wires, to write on a job card: the first 16 hexadecimal digits of the SHA-256 of what `calzundi route --wires`
//! prints, in four groups. `calzundi route --wires NET | sha256sum` gives the same digits.

use std::sync::OnceLock;

use calzundi::{Place, Wire};

use crate::routed::wires_text;

/// Four groups of four digits.
pub fn fingerprint(text: &str) -> String {
    let digest = sha256(text.as_bytes());
    let groups = digest[..8].chunks_exact(2);
    let groups: Vec<String> = groups
        .map(|two| format!("{:02x}{:02x}", two[0], two[1]))
        .collect();
    groups.join("-")
}

/// The fingerprint of wires moved to the origin, their least x and their least y to 0: one word for the same metal on every site.
pub fn form(wires: &[Wire]) -> String {
    let ends = || wires.iter().flat_map(|wire| [wire.start, wire.end]);
    let x = ends().map(|end| end.x).min().unwrap_or(0);
    let y = ends().map(|end| end.y).min().unwrap_or(0);
    fingerprint(&wires_text(&moved(wires, -x, -y)))
}

/// Wires moved by so much in x and in y.
pub fn moved(wires: &[Wire], x: i32, y: i32) -> Vec<Wire> {
    let there = |place: Place| Place {
        x: place.x + x,
        y: place.y + y,
    };
    let moved = wires.iter().map(|wire| Wire {
        start: there(wire.start),
        end: there(wire.end),
    });
    moved.collect()
}

/// The first 32 bits of the fractional parts of the square roots of the first eight primes, and of the cube roots of the first 64, worked
/// out with whole numbers.
fn constants() -> &'static ([u32; 8], [u32; 64]) {
    static ONCE: OnceLock<([u32; 8], [u32; 64])> = OnceLock::new();
    ONCE.get_or_init(roots)
}

fn roots() -> ([u32; 8], [u32; 64]) {
    let is_prime = |n: &u128| {
        (2..*n)
            .take_while(|d| d * d <= *n)
            .all(|d| !n.is_multiple_of(d))
    };
    let primes: Vec<u128> = (2..).filter(is_prime).take(64).collect();
    // The greatest r with r^power <= p * 2^(32 * power) is the root times 2^32; its low 32 bits are the fraction's.
    let root = |p: u128, power: u32| {
        let (mut low, mut high) = (0u128, 1 << 36);
        while high - low > 1 {
            let middle = (low + high) / 2;
            if middle.pow(power) <= p << (32 * power) {
                low = middle;
            } else {
                high = middle;
            }
        }
        low as u32
    };
    (
        std::array::from_fn(|at| root(primes[at], 2)),
        std::array::from_fn(|at| root(primes[at], 3)),
    )
}

/// SHA-256 (FIPS 180-4).
pub fn sha256(bytes: &[u8]) -> [u8; 32] {
    let (start, rounds) = constants();
    let mut state = *start;
    let mut padded = bytes.to_vec();
    padded.push(0x80);
    while padded.len() % 64 != 56 {
        padded.push(0);
    }
    padded.extend((8 * bytes.len() as u64).to_be_bytes());
    for block in padded.chunks_exact(64) {
        let mut w = [0u32; 64];
        for (word, four) in w.iter_mut().zip(block.chunks_exact(4)) {
            *word = u32::from_be_bytes([four[0], four[1], four[2], four[3]]);
        }
        for t in 16..64 {
            let (x, y) = (w[t - 15], w[t - 2]);
            let small0 = x.rotate_right(7) ^ x.rotate_right(18) ^ (x >> 3);
            let small1 = y.rotate_right(17) ^ y.rotate_right(19) ^ (y >> 10);
            w[t] = w[t - 16]
                .wrapping_add(small0)
                .wrapping_add(w[t - 7])
                .wrapping_add(small1);
        }
        let [mut a, mut b, mut c, mut d, mut e, mut f, mut g, mut h] = state;
        for t in 0..64 {
            let big1 = e.rotate_right(6) ^ e.rotate_right(11) ^ e.rotate_right(25);
            let choice = (e & f) ^ (!e & g);
            let one = h
                .wrapping_add(big1)
                .wrapping_add(choice)
                .wrapping_add(rounds[t])
                .wrapping_add(w[t]);
            let big0 = a.rotate_right(2) ^ a.rotate_right(13) ^ a.rotate_right(22);
            let majority = (a & b) ^ (a & c) ^ (b & c);
            let two = big0.wrapping_add(majority);
            (h, g, f, e) = (g, f, e, d.wrapping_add(one));
            (d, c, b, a) = (c, b, a, one.wrapping_add(two));
        }
        for (old, new) in state.iter_mut().zip([a, b, c, d, e, f, g, h]) {
            *old = old.wrapping_add(new);
        }
    }
    let mut digest = [0; 32];
    for (four, word) in digest.chunks_exact_mut(4).zip(state) {
        four.copy_from_slice(&word.to_be_bytes());
    }
    digest
}

#[cfg(test)]
mod tests {
    use super::*;

    /// The examples that are published with the standard, and the digest of nothing.
    #[test]
    fn published_digests() {
        let hex = |text: &str| -> String {
            let digest = sha256(text.as_bytes());
            digest.iter().map(|byte| format!("{byte:02x}")).collect()
        };
        assert_eq!(
            hex("abc"),
            "ba7816bf8f01cfea414140de5dae2223b00361a396177a9cb410ff61f20015ad"
        );
        assert_eq!(
            hex("abcdbcdecdefdefgefghfghighijhijkijkljklmklmnlmnomnopnopq"),
            "248d6a61d20638b8e5c026930c3e6039a33ce45964ff2167f6ecedd419db06c1"
        );
        assert_eq!(
            hex(""),
            "e3b0c44298fc1c149afbf4c8996fb92427ae41e4649b934ca495991b7852b855"
        );
        assert_eq!(fingerprint("abc"), "ba78-16bf-8f01-cfea");
    }
}
