//! Words of an input, said back: as one line, without what a terminal would act on, and not too long.

use std::fmt;

/// Of a word so many characters are said back.
const MOST: usize = 40;

/// A word with control characters, byte order marks and the like written out.
pub fn plain(word: &str) -> String {
    let mut said = String::new();
    for letter in word.chars() {
        if letter == ' ' || letter.is_alphanumeric() || letter.is_ascii_graphic() {
            said.push(letter);
        } else {
            said.extend(letter.escape_debug());
        }
    }
    said
}

/// A word in quotes, cut where it is long.
pub fn quoted(word: &str) -> String {
    match word.char_indices().nth(MOST) {
        Some((end, _)) => format!("'{}...'", plain(&word[..end])),
        None => format!("'{}'", plain(word)),
    }
}

/// A line that is no entry, and what is wrong with it. Lines count from 1.
#[derive(Clone, Debug, PartialEq, Eq)]
pub struct BadLine {
    pub line: usize,
    pub wrong: String,
}

impl fmt::Display for BadLine {
    fn fmt(&self, f: &mut fmt::Formatter) -> fmt::Result {
        write!(f, "line {}: {}", self.line, self.wrong)
    }
}

/// All lines of a text that are no entries: one or more, of which the first so many are kept.
#[derive(Clone, Debug, Default, PartialEq, Eq)]
pub struct BadLines {
    pub lines: Vec<BadLine>,
    /// How many more there are.
    pub more: usize,
    /// Whether the text is a net, whose lines `check` lists.
    pub is_net: bool,
}

/// So many bad lines are kept, and said where they are asked for; where something else was asked for, so few.
const KEPT: usize = 100;
const FEW: usize = 4;

impl BadLines {
    fn push(&mut self, bad: BadLine) {
        if self.lines.len() < KEPT {
            self.lines.push(bad)
        } else {
            self.more += 1
        }
    }

    /// The first of them, and how many are left.
    fn said(&self, most: usize) -> Vec<String> {
        let shown = self.lines.iter().take(most).map(BadLine::to_string);
        let mut said: Vec<String> = shown.collect();
        match self.lines.len().saturating_sub(most) + self.more {
            0 => {}
            more if most < KEPT && self.is_net => {
                said.push(format!("and {more} more: `calzundi check` lists them"))
            }
            more => said.push(format!("and {more} more")),
        }
        said
    }

    /// Every line that was kept.
    pub fn all(&self) -> Vec<String> {
        self.said(KEPT)
    }
}

/// The first few, a line each.
impl fmt::Display for BadLines {
    fn fmt(&self, f: &mut fmt::Formatter) -> fmt::Result {
        f.write_str(&self.said(FEW).join("\n  "))
    }
}

/// What each line of a text says, by its words, with comments left out: `#` makes the rest of its line a comment. A byte order mark at the
/// front is skipped, since some editors put it there. Lines after a bad one are looked at all the same.
pub fn each_line(
    bytes: &[u8],
    mut act: impl FnMut(usize, &[&str]) -> Result<(), String>,
) -> Result<(), BadLines> {
    let bytes = bytes.strip_prefix(b"\xef\xbb\xbf").unwrap_or(bytes);
    let mut bad = BadLines::default();
    for (number, line) in bytes.split(|&byte| byte == b'\n').enumerate() {
        let line_number = number + 1;
        let said = std::str::from_utf8(line).map_err(|_| "not UTF-8 text".to_string());
        let done = said.and_then(|line| {
            let said = line.split('#').next().unwrap_or("");
            let words: Vec<&str> = said.split_whitespace().collect();
            act(line_number, &words)
        });
        if let Err(wrong) = done {
            bad.push(BadLine {
                line: line_number,
                wrong,
            });
        }
    }
    if bad.lines.is_empty() {
        Ok(())
    } else {
        Err(bad)
    }
}
