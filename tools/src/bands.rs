//! A price list as text: one band a line, its limit and its rate.

use std::ffi::OsString;

use calzundi::{Band, Net, Refusal, RATE};

use crate::blame::{Blame, Entry, Kind, Reason};
use crate::line::{each_line, quoted, BadLines};
use crate::name::Name;
use crate::program::Failure;
use crate::streams::{name, read};

/// A list that was read.
#[derive(Clone, Debug)]
pub struct List {
    pub name: Name,
    pub bands: Vec<Band>,
    lines: Vec<usize>,
}

/// Reads a list of bands.
pub fn open(word: &OsString) -> Result<List, Failure> {
    let name = name(Some(word));
    let (bands, lines) =
        parse(&read(Some(word))?).map_err(|bad| Failure::Lines(name.clone(), bad))?;
    Ok(List { name, bands, lines })
}

/// What an allowed net is charged by a list, or why it is not.
pub fn charge(net: &Net, list: &List) -> Result<u64, Failure> {
    net.price(&list.bands).map_err(|refusal| {
        let metal = net.refined_tree().map_or(0, |tree| tree.metal);
        let blame = blamed(refusal, &list.bands, &list.lines, metal);
        Failure::refused(&list.name, blame)
    })
}

/// The bands that the bytes of a text give, with their lines. Any numbers of 64 bits and any count of lines pass, so that refused lists can
/// be written too; an odd list cannot.
pub fn parse(bytes: &[u8]) -> Result<(Vec<Band>, Vec<usize>), BadLines> {
    let (mut bands, mut lines) = (Vec::new(), Vec::new());
    each_line(bytes, |line, words| {
        match *words {
            [] => return Ok(()),
            [limit, rate] => bands.push(Band {
                limit: number("limit", limit)?,
                rate: number("rate", rate)?,
            }),
            [_] => return Err("a band needs a limit and a rate".into()),
            [_, _, extra, ..] => {
                let extra = quoted(extra);
                return Err(format!("{extra} stands after the end of the band"));
            }
        }
        lines.push(line);
        Ok(())
    })?;
    Ok((bands, lines))
}

fn number(name: &str, word: &str) -> Result<u64, String> {
    let digits = word.bytes().all(|byte| byte.is_ascii_digit());
    word.parse().ok().filter(|_| digits).ok_or_else(|| {
        let word = quoted(word);
        format!("{word} for {name} is no whole number of 0 to 2^64 - 1")
    })
}

/// Which bands a list's refusal is about: all that are to blame for 31 or 37, the last one for 32.
pub fn blamed(refusal: Refusal, bands: &[Band], lines: &[usize], metal: i64) -> Blame {
    let named = |at: usize| {
        let Band { limit, rate } = bands[at];
        format!("line {}, band {} ({limit} {rate})", lines[at], at + 1)
    };
    let entry = |at: usize| Entry {
        kind: Kind::Band,
        at,
        line: Some(lines[at]),
    };
    match refusal {
        Refusal::Bands if bands.is_empty() => Blame::because(refusal, "there is no band".into()),
        Refusal::Bands => {
            let cause = format!("a rate is above {RATE}");
            let high = (0..bands.len()).filter(|&at| bands[at].rate > RATE);
            Blame {
                reasons: high.map(|at| Reason::of(named(at), &[entry(at)])).collect(),
                ..Blame::because(refusal, cause)
            }
        }
        Refusal::BandOrder => {
            let mut reasons = Vec::new();
            for (at, two) in bands.windows(2).enumerate() {
                let (band, before) = (named(at + 1), named(at));
                let mut push =
                    |said: String| reasons.push(Reason::of(said, &[entry(at), entry(at + 1)]));
                if two[1].limit <= two[0].limit {
                    push(format!("{band} has a limit not above that of {before}"));
                }
                if two[1].rate < two[0].rate {
                    push(format!("{band} has a rate below that of {before}"));
                }
            }
            Blame::new(refusal, reasons)
        }
        _ => {
            let last = bands.len().checked_sub(1);
            let reason = last.map(|at| {
                let said = format!("the metal is {metal}, and {} is the last", named(at));
                Reason::of(said, &[entry(at)])
            });
            Blame::new(refusal, reason.into_iter().collect())
        }
    }
}

/// A charge in hundredths, as an amount of the currency: 1234 is 12.34.
pub fn amount(hundredths: u64) -> String {
    format!("{}.{:02}", hundredths / 100, hundredths % 100)
}
