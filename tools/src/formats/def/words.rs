//! The words of a file, each with its line.

use calzundi::Place;

use crate::line::{quoted, BadLine};

/// A word and its line, from 1.
#[derive(Clone, Copy, Debug, PartialEq, Eq)]
pub struct Word<'a> {
    pub line: usize,
    pub said: &'a str,
}

impl Word<'_> {
    pub fn wrong(&self, wrong: impl Into<String>) -> BadLine {
        BadLine {
            line: self.line,
            wrong: wrong.into(),
        }
    }

    /// The word as a whole number of 32 bits.
    pub fn number(&self, name: &str) -> Result<i32, BadLine> {
        let number = self.said.parse();
        number.map_err(|_| {
            let said = quoted(self.said);
            self.wrong(format!("{said} for {name} is no whole number of 32 bits"))
        })
    }
}

/// What is left of a file.
pub struct Words<'a> {
    rest: &'a str,
    line: usize,
}

impl<'a> Words<'a> {
    pub fn new(text: &'a str) -> Words<'a> {
        Words {
            rest: text,
            line: 1,
        }
    }

    /// The next word, or none at the end of the file. A word in quotes may have blanks.
    pub fn next(&mut self) -> Result<Option<Word<'a>>, BadLine> {
        self.blanks();
        let Some(first) = self.rest.bytes().next() else {
            return Ok(None);
        };
        let (line, rest) = (self.line, self.rest);
        let end = match first {
            b'"' => match rest[1..].find('"') {
                Some(end) => end + 2,
                None => {
                    let wrong = "a word in quotes has no end".into();
                    return Err(BadLine { line, wrong });
                }
            },
            _ => rest
                .find(|letter: char| letter.is_ascii_whitespace())
                .unwrap_or(rest.len()),
        };
        let (said, rest) = rest.split_at(end);
        self.line += said.bytes().filter(|&byte| byte == b'\n').count();
        self.rest = rest;
        Ok(Some(Word { line, said }))
    }

    /// Blanks and comments.
    fn blanks(&mut self) {
        loop {
            let rest = self
                .rest
                .trim_start_matches(|letter: char| letter.is_ascii_whitespace());
            let passed = &self.rest[..self.rest.len() - rest.len()];
            self.line += passed.bytes().filter(|&byte| byte == b'\n').count();
            self.rest = rest;
            if !rest.starts_with('#') {
                return;
            }
            self.rest = rest.find('\n').map_or("", |end| &rest[end..]);
        }
    }

    /// Where the last word stood.
    pub fn end(&self) -> Word<'static> {
        let (line, said) = (self.line, "");
        Word { line, said }
    }

    /// The next word, which must be there.
    pub fn word(&mut self) -> Result<Word<'a>, BadLine> {
        let line = self.line;
        self.next()?.ok_or_else(|| BadLine {
            line,
            wrong: "the file ends before END DESIGN".into(),
        })
    }

    /// A word that must be this one.
    pub fn expect(&mut self, wanted: &str) -> Result<(), BadLine> {
        let word = self.word()?;
        if word.said == wanted {
            Ok(())
        } else {
            Err(word.wrong(format!("{} where {wanted} should be", quoted(word.said))))
        }
    }

    /// Passes over all words up to the end of the statement, that included.
    pub fn skip(&mut self) -> Result<(), BadLine> {
        while self.word()?.said != ";" {}
        Ok(())
    }

    /// A place, `( x y )`.
    pub fn place(&mut self) -> Result<Place, BadLine> {
        self.expect("(")?;
        self.rest_of_place(None)
    }

    /// What follows a place's `(`: its numbers, `*` for those of the place before, perhaps a third one that says how far a wire reaches
    /// beyond it, and `)`.
    pub fn rest_of_place(&mut self, before: Option<Place>) -> Result<Place, BadLine> {
        let x = self.coordinate("x", before.map(|place| place.x))?;
        let y = self.coordinate("y", before.map(|place| place.y))?;
        let word = self.word()?;
        if word.said != ")" {
            word.number("an extension")?;
            self.expect(")")?;
        }
        Ok(Place { x, y })
    }

    fn coordinate(&mut self, name: &str, before: Option<i32>) -> Result<i32, BadLine> {
        let word = self.word()?;
        match (word.said, before) {
            ("*", Some(before)) => Ok(before),
            ("*", None) => Err(word.wrong(format!("* for {name} without a place before it"))),
            _ => word.number(name),
        }
    }
}
