//! Outputs as text: what every operation and the program answer on an input, one record for each. A record has its input in it, so it can
//! be made again from its own first lines. harness/first-release/README.md says what stands in each line.

use std::fmt::{self, Display};

use reference::lists::{unloaded, Lists};
use reference::net::Weights;
use reference::netfile;

use crate::{library, program};

/// What is handed over.
#[derive(Clone, Debug, PartialEq, Eq)]
pub enum Input {
    /// A net's lists, with weights 1 and 1 as all nets then had and two numbers a pin, since there were no loads, and whether answers stand
    /// in full; if not, the graph and the wires are digests.
    Net { lists: Lists, full: bool },
    /// The bytes of a file that is not as it should be.
    File { bytes: Vec<u8> },
}

/// An input with its number, its kind and its name within the kind.
#[derive(Clone, Debug, PartialEq, Eq)]
pub struct Case {
    pub number: usize,
    pub kind: String,
    pub name: String,
    pub input: Input,
}

impl Case {
    /// The record: its head, and all that is answered. Each line ends with a line feed.
    pub fn record(&self) -> String {
        let answers = match &self.input {
            Input::Net { lists, full } => {
                let lists = Lists {
                    pins: unloaded(&lists.pins),
                    ..lists.clone()
                };
                let (lists, full) = (&lists, *full);
                Net { lists, full }.answers()
            }
            Input::File { bytes } => [read(bytes), routed(bytes)].concat(),
        };
        let lines = answers.iter().map(|line| format!("{line}\n"));
        self.head() + &lines.collect::<String>()
    }

    /// The record's first lines: its title and its input.
    pub fn head(&self) -> String {
        let Case {
            number, kind, name, ..
        } = self;
        match &self.input {
            Input::Net { lists, full } => {
                let shown = if *full { "full" } else { "digests" };
                let (pins, macros) = (&lists.pins, &lists.macros);
                let lists = [listed("pins", pins, 2), listed("macros", macros, 4)];
                format!("net {number} {kind} {name} {shown}\n{}\n", lists.join("\n"))
            }
            Input::File { bytes } => {
                format!("damaged {number} {kind} {name}\nbytes {}\n", sparse(bytes))
            }
        }
    }

    /// The case of a record, by its first lines alone.
    pub fn parse(record: &str) -> Option<Case> {
        let mut lines = record.lines();
        let words: Vec<&str> = lines.next()?.split(' ').collect();
        let (input, [number, kind, name]) = match words[..] {
            ["net", number, kind, name, shown] => {
                let (pins, macros) = (lines.next()?, lines.next()?);
                let full = match shown {
                    "full" => true,
                    "digests" => false,
                    _ => return None,
                };
                let lists = Lists {
                    pins: numbers(pins.strip_prefix("pins ")?)?,
                    macros: numbers(macros.strip_prefix("macros ")?)?,
                    weights: Weights::ONE,
                };
                (Input::Net { lists, full }, [number, kind, name])
            }
            ["damaged", number, kind, name] => {
                let bytes = bytes_of(lines.next()?.strip_prefix("bytes ")?)?;
                (Input::File { bytes }, [number, kind, name])
            }
            _ => return None,
        };
        Some(Case {
            number: number.parse().ok()?,
            kind: kind.to_string(),
            name: name.to_string(),
            input,
        })
    }
}

/// The records of a stored text: all that is not a comment, parted by empty lines.
pub fn records(text: &str) -> Vec<String> {
    let mut records = vec![String::new()];
    for line in text.split_inclusive('\n') {
        if line == "\n" {
            records.push(String::new());
        } else if !line.starts_with('#') {
            records.last_mut().expect("one is there").push_str(line);
        }
    }
    records.retain(|record| !record.is_empty());
    records
}

/// One operation of one record that is not as stored: the first lines in which the two differ, empty where one has no more.
#[derive(Clone, Debug, PartialEq, Eq)]
pub struct Difference {
    pub title: String,
    pub operation: String,
    pub stored: String,
    pub now: String,
}

impl Display for Difference {
    fn fmt(&self, f: &mut fmt::Formatter) -> fmt::Result {
        let Difference {
            title,
            operation,
            stored,
            now,
        } = self;
        write!(
            f,
            "{title}: {operation} differs\n  stored: {stored}\n  now:    {now}"
        )
    }
}

/// The operation that a line is of: its first word.
pub fn operation(line: &str) -> &str {
    line.trim_end().split(' ').next().unwrap_or_default()
}

/// In which operations a record differs from the stored one. Without one, the two are equal byte for byte.
pub fn differences(stored: &str, now: &str) -> Vec<Difference> {
    let title = stored.split('\n').next().unwrap_or_default();
    let mut operations: Vec<&str> = Vec::new();
    for line in stored.split('\n').chain(now.split('\n')) {
        if !operations.contains(&operation(line)) {
            operations.push(operation(line));
        }
    }
    let mut found = Vec::new();
    for name in operations {
        let of = |record: &str| -> Vec<String> {
            let own = record.split('\n').filter(|line| operation(line) == name);
            own.map(str::to_string).collect()
        };
        let (before, after) = (of(stored), of(now));
        let longer = before.len().max(after.len());
        if let Some(at) = (0..longer).find(|&at| before.get(at) != after.get(at)) {
            let line = |lines: &[String]| lines.get(at).cloned().unwrap_or_default();
            found.push(Difference {
                title: title.to_string(),
                operation: name.to_string(),
                stored: line(&before),
                now: line(&after),
            });
        }
    }
    if found.is_empty() && stored != now {
        found.push(Difference {
            title: title.to_string(),
            operation: "the order of lines".to_string(),
            stored: stored.to_string(),
            now: now.to_string(),
        });
    }
    found
}

/// FNV-1a with 64 bits.
pub fn digest(bytes: &[u8]) -> u64 {
    bytes.iter().fold(0xcbf2_9ce4_8422_2325, |hash, &byte| {
        (hash ^ u64::from(byte)).wrapping_mul(0x0100_0000_01b3)
    })
}

/// How many numbers stand behind what is lent.
const GUARDS: usize = 2;

/// Lent space with its guards. Each number is one that no answer has and that its neighbours do not have.
struct Lent<T> {
    numbers: Vec<T>,
    filled: Vec<T>,
}

impl<T: Copy + PartialEq + Display> Lent<T> {
    fn new(lent: usize, filling: fn(i32) -> T) -> Lent<T> {
        let number = |at: usize| filling(0x5eed_0000 + at as i32);
        let filled: Vec<T> = (0..lent + GUARDS).map(number).collect();
        Lent {
            numbers: filled.clone(),
            filled,
        }
    }

    /// The part that is lent; the guards stay behind.
    fn part(&mut self) -> &mut [T] {
        let lent = self.numbers.len() - GUARDS;
        &mut self.numbers[..lent]
    }

    /// Nothing where all past so many numbers is as it was, guards included; else the first that is not.
    fn past(&self, given: usize) -> String {
        match (given..self.numbers.len()).find(|&at| self.numbers[at] != self.filled[at]) {
            Some(at) => format!(" and altered number {at}, past the answer"),
            None => String::new(),
        }
    }

    /// So many entries from the front, and what was altered behind them.
    fn given(&self, count: usize, width: usize, full: bool) -> String {
        let numbers = match self.numbers.get(..count * width) {
            Some(front) => entries(front, width),
            None => return format!(" {count}, more than was lent"),
        };
        let shown = match (full, numbers.is_empty()) {
            (true, true) => ":".to_string(),
            (true, false) => format!(": {numbers}"),
            (false, _) => format!(" digest {:016x}", digest(numbers.as_bytes())),
        };
        format!(" {count}{shown}{}", self.past(count * width))
    }
}

/// Numbers as entries of a width, the last one shorter where they are not whole entries.
fn entries<T: Display>(numbers: &[T], width: usize) -> String {
    let entry = |numbers: &[T]| {
        let words: Vec<String> = numbers.iter().map(T::to_string).collect();
        words.join(" ")
    };
    let entries: Vec<String> = numbers.chunks(width).map(entry).collect();
    entries.join(", ")
}

/// A list with the count of its whole entries.
fn listed(name: &str, list: &[i32], width: usize) -> String {
    let count = list.len() / width;
    format!("{name} {count}: {}", entries(list, width))
        .trim_end()
        .to_string()
}

/// The numbers of a list as `listed` writes them, its name left out.
fn numbers(said: &str) -> Option<Vec<i32>> {
    let (_, list) = said.split_once(':')?;
    let words = list.split([' ', ',']).filter(|word| !word.is_empty());
    words.map(|word| word.parse().ok()).collect()
}

/// A file's length, and its runs of bytes that are not 0: where each begins, and the bytes in hexadecimal.
fn sparse(bytes: &[u8]) -> String {
    let mut said = format!("{}:", bytes.len());
    let mut before = 0;
    for (at, byte) in bytes.iter().enumerate() {
        if *byte != 0 && before == 0 {
            let comma = if said.ends_with(':') { "" } else { "," };
            said += &format!("{comma} {at} ");
        }
        if *byte != 0 {
            said += &format!("{byte:02x}");
        }
        before = *byte;
    }
    said
}

/// The bytes of a file as `sparse` writes them.
fn bytes_of(said: &str) -> Option<Vec<u8>> {
    let (length, runs) = said.split_once(':')?;
    let mut bytes = vec![0; length.parse().ok()?];
    for run in runs.split(',').filter(|run| !run.is_empty()) {
        let (at, digits) = run.trim_start().split_once(' ')?;
        let at: usize = at.parse().ok()?;
        for pair in (0..digits.len()).step_by(2) {
            let byte = u8::from_str_radix(digits.get(pair..pair + 2)?, 16).ok()?;
            *bytes.get_mut(at + pair / 2)? = byte;
        }
    }
    Some(bytes)
}

/// 0 or the number of the refusal.
fn number<A>(answer: &Result<A, u32>) -> u32 {
    answer.as_ref().err().copied().unwrap_or(0)
}

/// How many entries were given, their total where there is one, and what else there is to say at the end of the line.
struct Given {
    count: usize,
    total: Option<i64>,
    besides: String,
}

/// An operation with one lent space: its name, what its entries are called, how many numbers one has, how many numbers it asks for.
struct Operation {
    name: &'static str,
    entries: &'static str,
    width: usize,
    asked: usize,
}

/// What an operation said: its lines with the space that it asks for, and its answer where that is one number less.
struct Said {
    lines: Vec<String>,
    short: String,
}

/// One number less than is asked for.
fn less(asked: usize) -> usize {
    asked.saturating_sub(1)
}

/// The lists that operations are called with.
struct Net<'a> {
    lists: &'a Lists,
    full: bool,
}

impl Net<'_> {
    /// The lines of all operations and of the program.
    fn answers(&self) -> Vec<String> {
        let (pins, macros, weights) = self.lists.parts();
        let checked = library::check(pins, macros, weights);
        let mut lines = vec![format!("check {}", number(&checked))];
        let mut short = "short".to_string();
        let (file, bytes) = self.file();
        for (name, said) in [
            ("graph", self.graph()),
            ("terminal", self.terminal()),
            ("refined", self.refined()),
            ("wires", self.wires()),
            ("file", file),
        ] {
            lines.extend(said.lines);
            short += &format!(" {name} {}", said.short);
        }
        lines.push(short);
        lines.extend(match bytes {
            Some(bytes) => routed(&bytes),
            None => vec!["route has no file of these lists".to_string()],
        });
        lines
    }

    /// m and n = m + 4k, as the lists have them, whole or not.
    fn size(&self) -> (usize, usize) {
        let m = self.lists.pins.len() / 3;
        (m, m + self.lists.macros.len() / 4 * 4)
    }

    /// "Graph", which asks for two spaces: either is one number short in turn.
    fn graph(&self) -> Said {
        let (pins, macros, weights) = self.lists.parts();
        let call = |vertices: usize, edges: usize| {
            let mut vertices = Lent::new(vertices, |filling| filling);
            let mut edges = Lent::new(edges, |filling| filling);
            let answer = library::graph(pins, macros, weights, vertices.part(), edges.part());
            (answer, vertices, edges)
        };
        let refused = |vertices: usize, edges: usize| {
            let (answer, vertices, edges) = call(vertices, edges);
            let altered = vertices.past(0) + &edges.past(0);
            format!("{}{altered}", number(&answer))
        };
        let (_, n) = self.size();
        let (two, sixteen) = (2 * n, 16 * n);
        let lines = match call(two, sixteen) {
            (Ok((v, e)), vertices, edges) => vec![
                format!("graph 0 vertices{}", vertices.given(v, 2, self.full)),
                format!("graph 0 edges{}", edges.given(e, 4, self.full)),
            ],
            _ => vec![format!("graph {}", refused(two, sixteen))],
        };
        let short = [refused(less(two), sixteen), refused(two, less(sixteen))];
        Said {
            lines,
            short: short.join(" "),
        }
    }

    /// "Terminal tree."
    fn terminal(&self) -> Said {
        let (pins, macros, weights) = self.lists.parts();
        let (m, _) = self.size();
        let operation = Operation {
            name: "terminal",
            entries: "paths",
            width: 5,
            asked: 5 * m,
        };
        operation.said(true, i64::from, |lent| {
            let (count, total) = library::terminal_tree(pins, macros, weights, lent)?;
            Ok(Given {
                count,
                total: Some(total),
                besides: String::new(),
            })
        })
    }

    /// "Refined tree." Metal is the total where both weights are 1; the line says so where it is not.
    fn refined(&self) -> Said {
        let (pins, macros, weights) = self.lists.parts();
        let (m, n) = self.size();
        let operation = Operation {
            name: "refined",
            entries: "edges",
            width: 4,
            asked: 4 * (n + m),
        };
        operation.said(true, i32::from, |lent| {
            let (count, total, metal) = library::refined_tree(pins, macros, weights, lent)?;
            let besides = if metal == total {
                String::new()
            } else {
                format!(" and metal {metal}")
            };
            Ok(Given {
                count,
                total: Some(total),
                besides,
            })
        })
    }

    /// "Wires."
    fn wires(&self) -> Said {
        let (pins, macros, weights) = self.lists.parts();
        let (m, n) = self.size();
        let operation = Operation {
            name: "wires",
            entries: "drawn",
            width: 4,
            asked: 8 * (n + m),
        };
        operation.said(self.full, i32::from, |lent| {
            Ok(Given {
                count: library::wires(pins, macros, weights, lent)?,
                total: None,
                besides: String::new(),
            })
        })
    }

    /// "Write a net file", and the bytes that the program is given. A refused net that is whole entries has a file too.
    fn file(&self) -> (Said, Option<Vec<u8>>) {
        let (pins, macros, weights) = self.lists.parts();
        let call = |bytes: usize| {
            let mut lent = Lent::new(bytes, |filling| filling as u8);
            let answer = library::write_file(pins, macros, weights, lent.part());
            (answer, lent)
        };
        let (m, _) = self.size();
        let blocks = 1 + m.div_ceil(60) + macros.len().div_ceil(120);
        let asked = blocks * netfile::BLOCK_BYTES;
        let (line, bytes) = match call(asked) {
            (Ok(given), lent) => {
                let bytes = lent.numbers[..given].to_vec();
                let line = format!("file 0 bytes {given} digest {:016x}", digest(&bytes));
                (line + &lent.past(given), Some(bytes))
            }
            (Err(number), lent) => {
                let whole = pins.len().is_multiple_of(3) && macros.len().is_multiple_of(4);
                let line = format!("file {number}{}", lent.past(0));
                (line, whole.then(|| netfile::write(self.lists)))
            }
        };
        let (answer, lent) = call(less(asked));
        let said = Said {
            lines: vec![line],
            short: format!("{}{}", number(&answer), lent.past(0)),
        };
        (said, bytes)
    }
}

impl Operation {
    /// The operation with exact space, then with one number less.
    fn said<T: Copy + PartialEq + Display>(
        &self,
        full: bool,
        filling: fn(i32) -> T,
        call: impl Fn(&mut [T]) -> Result<Given, u32>,
    ) -> Said {
        let Operation { name, entries, .. } = self;
        let mut exact = Lent::new(self.asked, filling);
        let line = match call(exact.part()) {
            Ok(Given {
                count,
                total,
                besides,
            }) => {
                let total = total.map_or(String::new(), |total| format!(" total {total}"));
                let given = exact.given(count, self.width, full);
                format!("{name} 0{total} {entries}{given}{besides}")
            }
            Err(number) => format!("{name} {number}{}", exact.past(0)),
        };
        let mut short = Lent::new(less(self.asked), filling);
        let answer = call(short.part());
        Said {
            lines: vec![line],
            short: format!("{}{}", number(&answer), short.past(0)),
        }
    }
}

/// "Read a net file."
fn read(bytes: &[u8]) -> Vec<String> {
    let mut pins = Lent::new(384, |filling| filling);
    let mut macros = Lent::new(512, |filling| filling);
    match library::read_file(bytes, pins.part(), macros.part()) {
        Ok((m, k, Weights { x, y })) => vec![
            format!("read 0 pins{}", pins.given(m, 3, true)),
            format!("read 0 macros{}", macros.given(k, 4, true)),
            format!("read 0 weights {x} {y}"),
        ],
        Err(number) => vec![format!("read {number}{}{}", pins.past(0), macros.past(0))],
    }
}

/// All that the program prints, each line after `route`. That it ended badly, said something on standard error or left its last line open
/// would stand there too.
fn routed(bytes: &[u8]) -> Vec<String> {
    let output = program::run(bytes);
    let printed = String::from_utf8_lossy(&output.stdout);
    let mut lines: Vec<String> = printed
        .split_inclusive('\n')
        .map(|line| match line.strip_suffix('\n') {
            Some(line) => format!("route {line}"),
            None => format!("route {line} (no line feed)"),
        })
        .collect();
    if !output.status.success() || !output.stderr.is_empty() {
        let said = String::from_utf8_lossy(&output.stderr);
        lines.push(format!("route ended with {}: {said:?}", output.status));
    }
    lines
}

#[cfg(test)]
mod tests {
    use super::*;

    /// A number past the answer, a guard, and any number after a refusal: each that is altered is said.
    #[test]
    fn altered_numbers_are_said() {
        for (given, altered) in [(2, 2), (2, 4), (2, 5), (0, 0), (0, 5)] {
            let mut lent = Lent::new(4, i64::from);
            lent.part()[..given].fill(7);
            assert_eq!(lent.past(given), "");
            lent.numbers[altered] = 7;
            let said = format!(" and altered number {altered}, past the answer");
            assert_eq!(lent.past(given), said);
            assert!(lent.given(given, 1, true).ends_with(&said));
        }
    }

    /// Lists and files are read back as written, whole or not, and a run of bytes up to the end too.
    #[test]
    fn inputs_are_read_back() {
        for list in [vec![], vec![-5], vec![0, i32::MIN, 7], vec![1, 2, 3, 4]] {
            let said = listed("pins", &list, 2);
            assert_eq!(numbers(said.strip_prefix("pins ").unwrap()), Some(list));
        }
        for bytes in [vec![], vec![0; 3], vec![0, 1, 255, 0, 0, 16], vec![9]] {
            assert_eq!(bytes_of(&sparse(&bytes)), Some(bytes));
        }
    }
}
