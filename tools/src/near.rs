//! What was meant by a word that nothing is called: the name that is nearest to it.

/// ` (did you mean 'route'?)`, or nothing where no name is near.
pub fn nearest<'a>(word: &str, names: impl Iterator<Item = &'a str>) -> String {
    // A word that is much longer than any name is near none.
    let word = word.get(..LONGEST).unwrap_or(word).as_bytes();
    let far = |name: &str| apart(word, name.as_bytes());
    let all = names.map(|name| (far(name), name));
    match all.min() {
        Some((far, name)) if far <= NEAR && far < name.len() / 2 + 1 => {
            format!(" (did you mean '{name}'?)")
        }
        _ => String::new(),
    }
}

/// So many letters may be wrong, and so many are looked at.
const NEAR: usize = 2;
const LONGEST: usize = 40;

/// How many letters must be put in, left out, changed or exchanged with their neighbour to come from one word to the other.
fn apart(one: &[u8], other: &[u8]) -> usize {
    let mut rows = vec![vec![0; other.len() + 1]; one.len() + 1];
    for a in 0..=one.len() {
        for b in 0..=other.len() {
            if a == 0 || b == 0 {
                rows[a][b] = a + b;
                continue;
            }
            let changed = usize::from(one[a - 1] != other[b - 1]);
            let mut least = rows[a - 1][b - 1] + changed;
            least = least.min(rows[a - 1][b] + 1).min(rows[a][b - 1] + 1);
            if a > 1 && b > 1 && one[a - 1] == other[b - 2] && one[a - 2] == other[b - 1] {
                least = least.min(rows[a - 2][b - 2] + 1);
            }
            rows[a][b] = least;
        }
    }
    rows[one.len()][other.len()]
}

#[cfg(test)]
mod tests {
    use super::{apart, nearest};

    #[test]
    fn words_that_are_near() {
        assert_eq!(apart(b"rout", b"route"), 1);
        assert_eq!(apart(b"rotue", b"route"), 1);
        assert_eq!(apart(b"", b"best"), 4);
        let names = ["check", "route", "best"];
        let near = |word: &str| nearest(word, names.into_iter());
        assert_eq!(near("rotue"), " (did you mean 'route'?)");
        assert_eq!(near("fly"), "");
        assert_eq!(near(""), "");
    }
}
