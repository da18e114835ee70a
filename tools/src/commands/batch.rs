//! `batch`: a line for each of many nets, by as many threads as there are cores.

use std::collections::BTreeMap;
use std::ffi::OsString;
use std::io::{self, IsTerminal, Write};
use std::os::unix::ffi::OsStringExt;
use std::sync::atomic::{AtomicBool, AtomicUsize, Ordering};
use std::sync::mpsc;
use std::thread;
use std::time::{Duration, Instant};

use crate::batched::{Form, Row, Wanted};
use crate::bound::BOUND;
use crate::line::plain;
use crate::program::{Command, Failure, Switch, Words, A_FILE, JSON, STACK};
use crate::shorten::effort::{EFFORT, SHORTENED};
use crate::streams::{read_most, say, write};

const HELP: &str = "\
calzundi batch NET..: routes many nets and prints a line for each

A NET is text or a net file. Lines come in the order of the nets, whatever the
threads, one for each net, also where it is refused or cannot be read (here they
are broken):

    NET: pins m macros k weights x y terminal T refined R metal M wires W
         fingerprint F
    NET: refused 16: two macros' interiors meet: line 3, macro 1 (0 0 2 2)
         and line 4, macro 2 (1 1 3 3)

    --csv          the same as comma-separated values, a line of names first
    --jsonl        a JSON object a line
    --json         the same objects as one array
    --form         and `form`: the fingerprint of the wires moved to the origin,
                   one word for the same metal on every site of a wafer
    --slid         and the total of the slid tree
    --best         and that of a best tree; - above 5 pins or 16 macros
    --shortened    and that of the tree that `calzundi shorten` finds
    --effort N     how much is tried for it, 1 to 9
    --bound        and `bound`, a cost that no tree undercuts, and `over`, how
                   much the cheapest tree of the line is over it, in percent;
                   for the largest nets it takes half a second
    --bands FILE   and the charge in hundredths, by a list of `calzundi price`
    --delay R,C    and the worst delay from the first pin of the net's list, by
                   resistance and capacitance for each unit of length
    --list FILE    takes the names of more nets from a file, one a line; for -
                   from standard input
    --null         names in the list end with a zero byte, as those of
                   `find -print0`
    --jobs N       so many threads; without it one for each core
    --shard I/N    takes the I-th net of every N, I from 1 to N: the lines of
                   all N shards are those of one run, and so is the line of
                   names, which only the first shard prints
    --quiet        no word about progress

    calzundi batch --csv --form nets/*.net >wafer.csv
    find nets -name '*.net' -print0 | sort -z |
      calzundi batch --csv --null --list - >wafer.csv
    parallel calzundi batch --csv --jobs 1 --shard {}/4 nets/*.net \\
      '>' shard.{}.csv ::: 1 2 3 4
    sbatch --array=1-64 --wrap 'calzundi batch --csv --quiet --jobs 1 \\
      --shard $SLURM_ARRAY_TASK_ID/64 nets/*.net >$SLURM_ARRAY_TASK_ID.csv'
    cat $(seq -f %.0f.csv 64) >wafer.csv

A charge or a delay that is refused is -, empty or null, and the row says why
beside the net's other numbers. Standard error says how far it is, and at the
end of how many nets every number is there.
Exit status: 0 of all nets; 1 some were refused, wholly or in a column, or could
not be read; 2 a wrong command line.
";

const fn plain_switch(name: &'static str) -> Switch {
    Switch { name, value: None }
}

const fn with_value(name: &'static str, value: &'static str) -> Switch {
    let value = Some(value);
    Switch { name, value }
}

pub const COMMAND: Command = Command {
    name: "batch",
    help: HELP,
    options: &[
        plain_switch("--csv"),
        plain_switch("--jsonl"),
        JSON,
        plain_switch("--form"),
        plain_switch("--slid"),
        plain_switch("--best"),
        SHORTENED,
        EFFORT,
        BOUND,
        with_value("--bands", A_FILE),
        with_value("--delay", "resistance and capacitance, as R,C"),
        with_value("--list", A_FILE),
        plain_switch("--null"),
        with_value("--jobs", "a number"),
        with_value("--shard", "I/N"),
        plain_switch("--quiet"),
    ],
    files: (0, usize::MAX),
    act: batch,
};

/// Every N-th net from the I-th on.
struct Shard {
    first: usize,
    of: usize,
}

fn shard(said: Option<&str>) -> Result<Shard, Failure> {
    let Some(said) = said else {
        return Ok(Shard { first: 1, of: 1 });
    };
    let wrong = || {
        Failure::Usage(format!(
            "--shard is I/N with I from 1 to N, not '{}'",
            plain(said)
        ))
    };
    let (first, of) = said.split_once('/').ok_or_else(wrong)?;
    let (first, of) = (first.parse().ok(), of.parse().ok());
    match (first, of) {
        (Some(first), Some(of)) if (1..=of).contains(&first) => Ok(Shard { first, of }),
        _ => Err(wrong()),
    }
}

fn jobs(said: Option<&str>) -> Result<usize, Failure> {
    let Some(said) = said else {
        return Ok(thread::available_parallelism().map_or(1, |count| count.get()));
    };
    let count = said.parse().ok().filter(|count| (1..=1024).contains(count));
    count.ok_or_else(|| Failure::Usage(format!("--jobs is 1 to 1024, not '{}'", plain(said))))
}

/// A list of names may be so many bytes long: millions of nets.
const LONGEST_LIST: u64 = 1 << 28;

/// The nets of the command line and of the list, by names of any bytes.
fn nets(words: &Words) -> Result<Vec<OsString>, Failure> {
    let mut nets = words.files.clone();
    if let Some(list) = words.file("--list") {
        let bytes = read_most(Some(list), LONGEST_LIST)?;
        let end = if words.has("--null") { 0 } else { b'\n' };
        let names = bytes.split(|&byte| byte == end);
        let names = names.map(|name| match end {
            0 => name,
            _ => name.strip_suffix(b"\r").unwrap_or(name),
        });
        let names = names.filter(|name| !name.is_empty());
        nets.extend(names.map(|name| OsString::from_vec(name.to_vec())));
    } else if words.has("--null") {
        let alone = "--null says how names in --list FILE end, and there is none";
        return Err(Failure::Usage(alone.into()));
    }
    if nets.is_empty() {
        return Err(Failure::Usage("NET is missing".into()));
    }
    Ok(nets)
}

fn form(words: &Words) -> Result<Form, Failure> {
    let forms = [
        ("--csv", Form::Csv),
        ("--jsonl", Form::JsonLines),
        ("--json", Form::Json),
    ];
    let asked: Vec<Form> = forms
        .into_iter()
        .filter(|(name, _)| words.has(name))
        .map(|(_, form)| form)
        .collect();
    match asked[..] {
        [] => Ok(Form::Text),
        [form] => Ok(form),
        _ => {
            let several = "--csv, --jsonl and --json are forms of one answer; take one of them";
            Err(Failure::Usage(several.into()))
        }
    }
}

fn batch(words: &Words) -> Result<(), Failure> {
    let (shard, jobs) = (shard(words.value("--shard"))?, jobs(words.value("--jobs"))?);
    let form = form(words)?;
    let wanted = Wanted::of(words)?;
    let nets = nets(words)?;
    let nets: Vec<&OsString> = nets
        .iter()
        .skip(shard.first - 1)
        .step_by(shard.of)
        .collect();
    let head = match form {
        Form::Csv if shard.first == 1 => wanted.names(),
        Form::Json => "[\n".into(),
        _ => String::new(),
    };
    write(None, head.as_bytes(), &[])?;
    let (next, stop) = (AtomicUsize::new(0), AtomicBool::new(false));
    let (sender, rows) = mpsc::channel();
    let done = thread::scope(|scope| {
        for _ in 0..jobs.min(nets.len()) {
            let (sender, next, stop) = (sender.clone(), &next, &stop);
            let (nets, wanted) = (&nets, &wanted);
            let work = move || {
                while !stop.load(Ordering::Relaxed) {
                    let at = next.fetch_add(1, Ordering::Relaxed);
                    let Some(net) = nets.get(at) else {
                        break;
                    };
                    if sender.send((at, Row::of(net, wanted))).is_err() {
                        break;
                    }
                }
            };
            let started = thread::Builder::new()
                .stack_size(STACK)
                .spawn_scoped(scope, work);
            if let Err(error) = started {
                stop.store(true, Ordering::Relaxed);
                return Err(Failure::wrong("a thread", error));
            }
        }
        drop(sender);
        let done = print(&rows, nets.len(), form, words.has("--quiet"));
        stop.store(true, Ordering::Relaxed);
        done
    });
    if form == Form::Json && matches!(done, Ok(()) | Err(Failure::No)) {
        write(None, b"\n]\n", &[])?;
    }
    done
}

/// Prints rows in the order of their nets as they come.
fn print(
    rows: &mpsc::Receiver<(usize, Row)>,
    count: usize,
    form: Form,
    quiet: bool,
) -> Result<(), Failure> {
    let mut progress = Progress::new(count, quiet);
    let mut waiting = BTreeMap::new();
    let mut printed = 0;
    loop {
        match rows.recv_timeout(Duration::from_millis(100)) {
            Ok((at, row)) => {
                progress.routed += usize::from(row.wrong().is_none());
                progress.wrong += usize::from(row.wrong().is_some());
                waiting.insert(at, row.line(form));
            }
            Err(mpsc::RecvTimeoutError::Timeout) => {}
            Err(mpsc::RecvTimeoutError::Disconnected) => break,
        }
        let mut ready = String::new();
        while let Some(line) = waiting.remove(&printed) {
            // The entries of an array stand after each other's commas.
            if form == Form::Json && printed > 0 {
                ready += ",\n";
            }
            ready += &line;
            printed += 1;
        }
        if !ready.is_empty() {
            write(None, ready.as_bytes(), &[])?;
        }
        progress.show();
    }
    progress.end();
    if printed != count {
        return Err(Failure::wrong("batch", "a thread ended early"));
    }
    match progress.wrong {
        0 => Ok(()),
        _ => Err(Failure::No),
    }
}

/// How far a batch is: on a terminal one line that changes, elsewhere a line every ten seconds; at the end what was done.
struct Progress {
    count: usize,
    routed: usize,
    wrong: usize,
    quiet: bool,
    on_terminal: bool,
    start: Instant,
    shown: Instant,
}

impl Progress {
    fn new(count: usize, quiet: bool) -> Progress {
        let now = Instant::now();
        Progress {
            count,
            routed: 0,
            wrong: 0,
            quiet,
            on_terminal: io::stderr().is_terminal(),
            start: now,
            shown: now,
        }
    }

    fn line(&self) -> String {
        let Progress {
            count,
            routed,
            wrong,
            ..
        } = self;
        let done = routed + wrong;
        let seconds = self.start.elapsed().as_secs_f64();
        format!(
            "calzundi batch: {done} of {count} nets, {routed} routed, {wrong} not, {seconds:.1} s"
        )
    }

    fn show(&mut self) {
        let pause = Duration::from_millis(if self.on_terminal { 200 } else { 10_000 });
        if self.quiet || self.shown.elapsed() < pause {
            return;
        }
        self.shown = Instant::now();
        if self.on_terminal {
            let mut out = io::stderr().lock();
            let _ = write!(out, "\r{}\x1b[K", self.line());
            let _ = out.flush();
        } else {
            say(&self.line());
        }
    }

    fn end(&self) {
        if !self.quiet {
            let start = if self.on_terminal { "\r" } else { "" };
            let clear = if self.on_terminal { "\x1b[K" } else { "" };
            say(&format!("{start}{}{clear}", self.line()));
        }
    }
}
