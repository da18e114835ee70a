//! What the requests that have landed since the first release change in its stored outputs: a rule, or a file of differences beside them.
//! harness/first-release/README.md has both in words.

use std::collections::BTreeMap;

use crate::outputs::{operation, records};

/// \[1\] for weights 1 and 1: the header ends with the metal, a read says its weights, and nothing else changes. Metal is
/// then the refined total, which stands at the end of the stored header.
pub fn weights(stored: &str) -> String {
    let mut now = String::new();
    for line in stored.split_inclusive('\n') {
        let words: Vec<&str> = line.trim_end_matches('\n').split(' ').collect();
        match words[..] {
            ["route", "pins", _, "macros", _, "terminal", _, "refined", total] => {
                now += &format!("{} metal {total}\n", words.join(" "));
            }
            ["read", "0", "macros", ..] => {
                now += line;
                now += "read 0 weights 1 1\n";
            }
            _ => now += line,
        }
    }
    now
}

/// "Outputs of nets without loads" are what they were, but that a pin that is read has three numbers, the third of them 0 \[11\].
pub fn loads(stored: &str) -> String {
    let loaded = |line: &str| -> Option<String> {
        let pins = line.strip_prefix("read 0 pins ")?;
        let (count, list) = pins.strip_suffix('\n')?.split_once(':')?;
        let pins: Vec<String> = list.split(',').map(|pin| format!("{pin} 0")).collect();
        Some(format!("read 0 pins {count}:{}\n", pins.join(",")))
    };
    let lines = stored.split_inclusive('\n');
    lines
        .map(|line| loaded(line).unwrap_or_else(|| line.to_string()))
        .collect()
}

/// One operation of one record that a request changes: its lines before and after, each with its line feed.
#[derive(Clone, Debug, PartialEq, Eq)]
pub struct Change {
    pub operation: String,
    pub was: String,
    pub now: String,
}

impl Change {
    /// In what two records differ, operation by operation.
    pub fn between(was: &str, now: &str) -> Vec<Change> {
        let mut operations: Vec<&str> = Vec::new();
        for line in was.lines().chain(now.lines()) {
            if !operations.contains(&operation(line)) {
                operations.push(operation(line));
            }
        }
        let change = |name: &str| Change {
            operation: name.to_string(),
            was: lines_of(was, name),
            now: lines_of(now, name),
        };
        let changes = operations.into_iter().map(change);
        changes.filter(|change| change.was != change.now).collect()
    }

    /// As it stands in a file: the lines before, then those after.
    fn text(&self) -> String {
        let marked = |mark: &str, lines: &str| -> String {
            lines
                .lines()
                .map(|line| format!("{mark} {line}\n"))
                .collect()
        };
        marked("was", &self.was) + &marked("now", &self.now)
    }
}

/// The lines of an operation.
fn lines_of(record: &str, name: &str) -> String {
    let lines = record.split_inclusive('\n');
    lines.filter(|line| operation(line) == name).collect()
}

/// A file of differences: the title of each record that changes, with its changes.
#[derive(Default)]
pub struct Differences {
    pub of: BTreeMap<String, Vec<Change>>,
}

impl Differences {
    /// A record of the file.
    pub fn text(title: &str, changes: &[Change]) -> String {
        let changes: String = changes.iter().map(Change::text).collect();
        format!("{title}\n{changes}")
    }

    /// What stands in a file.
    pub fn parse(text: &str) -> Differences {
        let mut of = BTreeMap::new();
        for record in records(text) {
            let (title, rest) = record.split_once('\n').expect("a title");
            let mut changes: Vec<Change> = Vec::new();
            for line in rest.split_inclusive('\n') {
                let (mark, said) = line.split_once(' ').expect(line);
                let name = operation(said);
                if changes.last().is_none_or(|last| last.operation != name) {
                    changes.push(Change {
                        operation: name.to_string(),
                        was: String::new(),
                        now: String::new(),
                    });
                }
                let change = changes.last_mut().expect("one is there");
                match mark {
                    "was" => change.was += said,
                    "now" => change.now += said,
                    _ => panic!("{title}: {line}"),
                }
            }
            let twice = of.insert(title.to_string(), changes);
            assert!(twice.is_none(), "{title} stands there twice");
        }
        Differences { of }
    }

    /// A record with its changes. That the lines before are not those of the record, or that nothing changes, is said instead.
    pub fn apply(&self, record: &str) -> Result<String, String> {
        let title = record.lines().next().unwrap_or_default();
        let Some(changes) = self.of.get(title) else {
            return Ok(record.to_string());
        };
        let mut changed = record.to_string();
        for Change {
            operation,
            was,
            now,
        } in changes
        {
            if was.is_empty() || lines_of(record, operation) != *was {
                return Err(format!("{title}: {operation} was not as the file says"));
            }
            if was == now {
                return Err(format!("{title}: {operation} does not change"));
            }
            changed = changed.replacen(was, now, 1);
        }
        if changes.is_empty() {
            Err(format!("{title}: no operation changes"))
        } else {
            Ok(changed)
        }
    }
}
