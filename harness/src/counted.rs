//! How often the rare branches were met while two programs were matched: a match that never met one says nothing of it.

use std::io::Write;

/// Events in the order in which they first came up, with how often.
pub struct Counted {
    title: String,
    events: Vec<(String, usize)>,
}

impl Counted {
    pub fn new(title: &str) -> Counted {
        Counted {
            title: title.to_string(),
            events: Vec::new(),
        }
    }

    /// Counts an event so many times more; none of them is a line too.
    pub fn add(&mut self, event: &str, times: usize) {
        match self.events.iter_mut().find(|(known, _)| known == event) {
            Some((_, count)) => *count += times,
            None => self.events.push((event.to_string(), times)),
        }
    }

    /// Prints all counts, past the capture of what a test prints, so that they are in the gate's log; red where one is below the least.
    pub fn all_met(&self, least: usize) {
        let mut said = format!("{}:", self.title);
        for (event, times) in &self.events {
            said += &format!("\n    {times:>6} {event}");
        }
        let _ = writeln!(std::io::stderr(), "{said}");
        for (event, times) in &self.events {
            assert!(*times >= least, "met {times} times: {event}");
        }
    }
}
