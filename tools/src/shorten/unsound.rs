//! What is said and kept where a search gives a tree that does not pass the check: it is an error of this program,
//! and its tree is not shown.

use std::path::PathBuf;

use calzundi::Edge;

use super::checked::NotPassed;
use super::shortened::Stopped;
use crate::program::Failure;
use crate::source::Source;
use crate::streams::{name, write_new};
use crate::text;
use crate::tree;

/// The failure of a net that has no shortened tree. Where the search was wrong, the net and its tree go to a new
/// file, in the working folder, or where that takes none in the one for temporary files.
pub fn failure(source: &Source, stopped: Stopped) -> Failure {
    let folders = [PathBuf::from("."), std::env::temp_dir()];
    failure_in(&folders, source, stopped)
}

/// The same with the file in the first of some folders that takes it.
pub fn failure_in(folders: &[PathBuf], source: &Source, stopped: Stopped) -> Failure {
    let (why, edges) = match stopped {
        Stopped::Refused(refusal) => return source.unfit(refusal),
        Stopped::Unsound(NotPassed { edges, refusal }) => {
            let why = format!("gave a tree that does not pass the check ({refusal})");
            (why, edges)
        }
        Stopped::Broken => ("broke down".to_string(), Vec::new()),
    };
    let report = report(source, &why, &edges);
    let kept = match write_new(folders, "calzundi-shorten", "txt", report.as_bytes()) {
        Ok(file) => format!("the net is in {}", name(Some(&file.into()))),
        Err(error) => format!("the net could not be kept in a file ({error})"),
    };
    let what = format!(
        "internal error: the search {why}; no tree is shown, and {kept}, to be sent to who made this program; \
         `calzundi slide` gives a tree"
    );
    Failure::wrong(&source.name, what)
}

/// A text that is the net, with what went wrong and the edges that came of it in comments.
fn report(source: &Source, why: &str, edges: &[Edge]) -> String {
    let comment = |line: &str| format!("# {line}\n");
    let version = calzundi::VERSION;
    let head = format!("calzundi {version}: the search for a shorter tree of this net {why}");
    let net = text::print(&source.net);
    let edges: String = tree::print(edges).lines().map(comment).collect();
    [comment(&head), net, comment("edges:"), edges].concat()
}
