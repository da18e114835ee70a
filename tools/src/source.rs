//! A net that is read, from text or from a net file alike: a net file begins with the byte 1 and has bytes that are 0, text does not.

use std::ffi::OsString;

use calzundi::{Net, Refusal};

use crate::blame::{blamed, Blame, Reason};
use crate::blocks;
use crate::formats::layout;
use crate::name::Name;
use crate::program::Failure;
use crate::streams::{name, read};
use crate::text::{self, Lines};

/// What was read: the net, where its entries stand, and whether the router allows it.
#[derive(Clone, Debug)]
pub struct Source {
    pub name: Name,
    pub net: Net,
    pub lines: Option<Lines>,
    pub verdict: Result<(), Refused>,
}

/// A refusal with all that is to blame for it.
#[derive(Clone, Debug, PartialEq, Eq)]
pub struct Refused {
    pub refusal: Refusal,
    pub blame: Blame,
}

/// Reads a net. A line that says nothing is a failure; a net that is refused is not, until it is asked for.
pub fn open(word: Option<&OsString>) -> Result<Source, Failure> {
    source(name(word), &read(word)?)
}

/// The net of bytes.
pub fn source(name: Name, bytes: &[u8]) -> Result<Source, Failure> {
    if is_wide(bytes) {
        let wide = "it is UTF-16 or UTF-32 text; a net is UTF-8, so save it as that";
        return Err(Failure::wrong(name, wide));
    }
    if is_file(bytes) {
        return Ok(from_file(name, bytes));
    }
    let (net, lines) = text::parse(bytes).map_err(|bad| match layout(bytes) {
        Some(kind) => Failure::wrong(
            &name,
            format!("it is {kind}, and `calzundi import` makes a net of it"),
        ),
        None => Failure::Lines(name.clone(), bad),
    })?;
    let lines = Some(lines);
    let verdict = net.check().map_err(|refusal| Refused {
        refusal,
        blame: blamed(&net, lines.as_ref(), refusal),
    });
    Ok(Source {
        name,
        net,
        lines,
        verdict,
    })
}

/// Whether bytes are a net file, or what is left of one: nothing at all is what is left of an empty one.
fn is_file(bytes: &[u8]) -> bool {
    bytes.is_empty() || bytes[0] == 1 || bytes.contains(&0)
}

/// Whether bytes are text with two or four bytes a letter, by their byte order mark or by their first two letters.
fn is_wide(bytes: &[u8]) -> bool {
    let letter =
        |byte: u8| byte == b'#' || byte.is_ascii_alphabetic() || byte.is_ascii_whitespace();
    match bytes {
        [0xff, 0xfe, ..] | [0xfe, 0xff, ..] | [0, 0, 0xfe, 0xff, ..] => true,
        [a, 0, b, 0, ..] | [0, a, 0, b, ..] => letter(*a) && letter(*b),
        _ => false,
    }
}

/// Whether bytes are a net, or one that cannot be read any more, so that nobody loses it: a net file, also a cut or damaged one, or text
/// with a line that begins as an entry does.
pub fn is_net(bytes: &[u8]) -> bool {
    blocks::is_left(bytes) || has_entry(bytes)
}

fn has_entry(bytes: &[u8]) -> bool {
    let narrow: Vec<u8> = if is_wide(bytes) {
        bytes.iter().copied().filter(|byte| *byte != 0).collect()
    } else {
        bytes.to_vec()
    };
    let text = String::from_utf8_lossy(&narrow);
    // A byte order mark stands before the first word, and a wide one is no letter here.
    let text = text.trim_start_matches(['\u{feff}', char::REPLACEMENT_CHARACTER]);
    text.split(['\n', '\r']).any(|line| {
        let said = line.split('#').next().unwrap_or("");
        let first = said.split_whitespace().next();
        matches!(first, Some("pin" | "macro" | "weights"))
    })
}

fn from_file(name: Name, bytes: &[u8]) -> Source {
    let (net, verdict) = match Net::from_file(bytes) {
        Ok(net) => (net, Ok(())),
        Err(refusal) => {
            let net = blocks::net_in(bytes);
            let mut blame = match refusal.number() {
                1..=3 => blocks::blamed(bytes, refusal),
                _ => blamed(&net, None, refusal),
            };
            if let Some(kind) = layout(bytes) {
                let said = format!("it is {kind}, and `calzundi import` makes a net of it");
                blame.reasons = vec![Reason::of(said, &[])];
            }
            (net, Err(Refused { refusal, blame }))
        }
    };
    Source {
        name,
        net,
        lines: None,
        verdict,
    }
}

impl Source {
    /// The net, where it is allowed.
    pub fn allowed(&self) -> Result<&Net, Failure> {
        match &self.verdict {
            Ok(()) => Ok(&self.net),
            Err(refused) => Err(self.refused(refused)),
        }
    }

    /// The refusal of this net as a failure, with a few of its reasons.
    pub fn refused(&self, refused: &Refused) -> Failure {
        Failure::Refused {
            name: self.name.clone(),
            blame: Box::new(refused.blame.clone()),
            few: true,
        }
    }

    /// A refusal by an operation, of an allowed net: all that is to blame for it.
    pub fn unfit(&self, refusal: Refusal) -> Failure {
        Failure::refused(&self.name, blamed(&self.net, self.lines.as_ref(), refusal))
    }
}
