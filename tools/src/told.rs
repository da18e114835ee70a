//! How a failure is told: a refusal's line goes to standard output in every command alike, or an object where JSON is asked for; words for
//! people go to standard error.

use crate::json::{about, bad_line, listed, object, quoted, refused};
use crate::program::Failure;
use crate::streams::{say, write};

/// Tells a failure of a command; the exit status that it ends with.
pub fn tell(command: &str, json: bool, failure: &Failure) -> u8 {
    let printed = match (json, failure) {
        (true, failure) => printed(failure),
        (false, Failure::Refused { blame, .. }) => Some(format!("refused {}\n", blame.number)),
        _ => None,
    };
    let lost = printed.and_then(|text| write(None, text.as_bytes(), &[]).err());
    words(command, failure);
    if let Some(lost) = lost {
        words(command, &lost);
    }
    status(failure)
}

/// 1 where something is refused, wrong or different, 2 where the command line is wrong.
pub fn status(failure: &Failure) -> u8 {
    match failure {
        Failure::Usage(_) => 2,
        _ => 1,
    }
}

/// What is said on standard error; nothing where the answer itself was no, and where nobody reads on.
pub fn words(command: &str, failure: &Failure) {
    let name = match command {
        "" => String::new(),
        command => format!(" {command}"),
    };
    match failure {
        Failure::No | Failure::Gone => {}
        Failure::Usage(wrong) => say(&format!(
            "calzundi{name}: {wrong}; `calzundi{name} --help` says how it is used"
        )),
        failure => say(&format!("calzundi{name}: {}", said(failure))),
    }
}

/// A failure in words.
pub fn said(failure: &Failure) -> String {
    match failure {
        Failure::Usage(wrong) | Failure::Input(wrong) => wrong.clone(),
        Failure::Wrong { name, what } => format!("{name}: {what}"),
        Failure::Lines(name, bad) => format!("{name}: {bad}"),
        Failure::Refused { name, blame, few } => {
            let lines = if *few { blame.few() } else { blame.lines() };
            format!("{name}: {}", lines.join("\n"))
        }
        Failure::No | Failure::Gone => String::new(),
    }
}

/// A failure as an object; none of a wrong command line, and of what has been said.
pub fn printed(failure: &Failure) -> Option<String> {
    let fields = match failure {
        Failure::No | Failure::Gone | Failure::Usage(_) => return None,
        Failure::Input(wrong) => vec![
            ("calzundi", quoted(calzundi::VERSION)),
            ("error", quoted(wrong)),
        ],
        Failure::Wrong { name, what } => {
            [about("file", name), vec![("error", quoted(what))]].concat()
        }
        Failure::Lines(name, bad) => {
            let lines = listed(bad.lines.iter().map(bad_line));
            let count = bad.lines.len() + bad.more;
            let error = format!("{count} of its lines say nothing that is known");
            let more = vec![("error", quoted(&error)), ("lines", lines)];
            [about("file", name), more].concat()
        }
        Failure::Refused { name, blame, .. } => {
            // Of a price list and of a tree the number tells.
            let kind = match blame.number {
                31 | 32 | 37 => "bands",
                33..=35 => "tree",
                _ => "net",
            };
            [about(kind, name), refused(blame)].concat()
        }
    };
    Some(object(&fields))
}
