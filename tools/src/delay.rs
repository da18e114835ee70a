//! Delays as they are asked for and said: a driver, a technology, and a table.

use calzundi::{Net, PinDelay, Place, Refusal, Technology};

use crate::blame::{Blame, Reason};
use crate::line::quoted;

/// What delays are asked for by.
#[derive(Clone, Copy, Debug, PartialEq)]
pub struct Asked {
    pub driver: Place,
    pub technology: Technology,
}

impl Asked {
    /// The driver as `x,y`, resistance and capacitance as numbers; or what is wrong with a word.
    pub fn parse(driver: &str, resistance: &str, capacitance: &str) -> Result<Asked, String> {
        let place = driver.split_once(',').and_then(|(x, y)| {
            Some(Place {
                x: x.trim().parse().ok()?,
                y: y.trim().parse().ok()?,
            })
        });
        let wrong = || format!("the driver is a place as 'x,y', not {}", quoted(driver));
        let number = |name: &str, word: &str| {
            let wrong = || format!("the {name} is a number, not {}", quoted(word));
            word.trim().parse::<f64>().map_err(|_| wrong())
        };
        Ok(Asked {
            driver: place.ok_or_else(wrong)?,
            technology: Technology {
                resistance: number("resistance", resistance)?,
                capacitance: number("capacitance", capacitance)?,
            },
        })
    }

    /// All four as one word, `x,y,resistance,capacitance`.
    pub fn parse_word(word: &str) -> Result<Asked, String> {
        let parts: Vec<&str> = word.split(',').collect();
        match parts[..] {
            [x, y, resistance, capacitance] => {
                Asked::parse(&format!("{x},{y}"), resistance, capacitance)
            }
            _ => {
                let wanted = "the driver's x and y, resistance and capacitance, as 'x,y,R,C'";
                Err(format!("{wanted}, not {}", quoted(word)))
            }
        }
    }

    /// The delays of an allowed net, or why there are none.
    pub fn of(&self, net: &Net) -> Result<Vec<PinDelay>, Refusal> {
        net.delays(self.driver, self.technology)
    }

    /// What is to blame for a refusal.
    pub fn blamed(&self, refusal: Refusal) -> Blame {
        let Technology {
            resistance,
            capacitance,
        } = self.technology;
        let Place { x, y } = self.driver;
        let fair = |number: f64| number.is_finite() && number > 0.0;
        let reasons: Vec<String> = match refusal {
            Refusal::Technology => [("resistance", resistance), ("capacitance", capacitance)]
                .into_iter()
                .filter(|(_, number)| !fair(*number))
                .map(|(name, number)| format!("the {name} is {}", said(number)))
                .collect(),
            Refusal::Driver => vec![format!("no pin is at {x} {y}")],
            _ => Vec::new(),
        };
        let reasons = reasons.into_iter().map(|said| Reason::of(said, &[]));
        Blame::new(refusal, reasons.collect())
    }
}

/// A delay in the fewest digits that are read back as the same bits; very large and very small ones with an exponent.
pub fn said(delay: f64) -> String {
    let plain = delay == 0.0 || (1e-5..1e15).contains(&delay.abs()) || !delay.is_finite();
    if plain {
        format!("{delay}")
    } else {
        format!("{delay:e}")
    }
}

/// A delay to five digits, for a picture.
pub fn rounded(delay: f64) -> String {
    let few = format!("{delay:.4e}");
    few.parse().map_or(few, said)
}

/// A line for each pin in the order of places: its place and its delay, in columns.
pub fn table(delays: &[PinDelay]) -> String {
    let names = delays
        .iter()
        .map(|d| format!("{} {}", d.place.x, d.place.y));
    let names: Vec<String> = names.collect();
    let widest = names.iter().map(String::len).max().unwrap_or(0);
    let lines = names.iter().zip(delays);
    lines
        .map(|(name, d)| format!("{name:widest$}  {}\n", said(d.delay)))
        .collect()
}

#[cfg(test)]
mod tests {
    use super::{rounded, said, Asked};

    #[test]
    fn what_is_said_is_read_back() {
        for bits in [
            0,
            1,
            0x3ff0_0000_0000_0001,
            0x7fef_ffff_ffff_ffff,
            0x3ca0_0000_0000_0000,
        ] {
            let delay = f64::from_bits(bits);
            assert_eq!(said(delay).parse::<f64>().unwrap().to_bits(), bits);
        }
        assert_eq!(said(0.0), "0");
        assert_eq!(said(1.5), "1.5");
        assert_eq!(said(1e-9), "1e-9");
        assert_eq!(rounded(1234.5678), "1234.6");
        assert_eq!(rounded(0.0), "0");
    }

    #[test]
    fn words() {
        let asked = Asked::parse("-1,0", "1e-3", "2").unwrap();
        assert_eq!((asked.driver.x, asked.driver.y), (-1, 0));
        assert_eq!(asked.technology.resistance, 0.001);
        assert_eq!(Asked::parse_word("-1,0,1e-3,2"), Ok(asked));
        assert!(Asked::parse_word("-1,0,1e-3").is_err());
        assert!(Asked::parse("-1", "1", "2").is_err());
        assert!(Asked::parse("0,99999999999", "1", "2").is_err());
        assert!(Asked::parse("0,0", "ohm", "2").is_err());
    }
}
