//! `bench OPERATION PROGRAM KIND SIZE TIMES`: runs one operation of one program on a net of a kind and size, for an instruction count from
//! outside. The script `bench` beside the README runs it under callgrind for both programs and prints the ratio. The operation `file` writes
//! the net's file to standard output, for the program `route`. `bench seconds OPERATION ..` prints the processor time of a call instead.

use std::io::Write;
use std::process::ExitCode;

use harness::measured::{net_of, run, KINDS, OPERATIONS};
use harness::{clock, library};
use reference::lists::Lists;

/// What is asked for.
struct Call {
    operation: String,
    is_proved: bool,
    lists: Lists,
    times: u32,
}

fn help() -> String {
    format!(
        "bench [seconds] OPERATION proved|second KIND SIZE TIMES\n\
         one operation of one program on a net of SIZE pins and SIZE macros, or on the net of a file of text, KIND ending in .txt;\n\
         distances take 16 pins of it, best 5\n\
         operations: {} file\n\
         kinds: {}\n\
         seconds: the least processor time of TIMES calls, in microseconds",
        OPERATIONS.join(" "),
        KINDS.join(" ")
    )
}

/// The call that the words ask for.
fn parsed(words: &[String]) -> Result<Call, String> {
    let [operation, program, kind, size, times] = words else {
        return Err(help());
    };
    let (Ok(size), Ok(times)) = (size.parse::<usize>(), times.parse::<u32>()) else {
        return Err(help());
    };
    if !(1..=calzundi::PINS).contains(&size) {
        return Err(format!(
            "a net has 1 to {} pins and macros here",
            calzundi::PINS
        ));
    }
    let is_proved = match program.as_str() {
        "proved" => true,
        "second" => false,
        _ => return Err(help()),
    };
    if operation != "file" && !OPERATIONS.contains(&operation.as_str()) {
        return Err(help());
    }
    Ok(Call {
        operation: operation.clone(),
        is_proved,
        lists: net_of(kind, size)?,
        times,
    })
}

/// The net's file.
fn file(lists: &Lists) -> Vec<u8> {
    let (pins, macros, weights) = lists.parts();
    let mut bytes = vec![0; calzundi::LONGEST_FILE];
    let given = library::write_file(pins, macros, weights, &mut bytes);
    bytes.truncate(given.expect("the net is allowed, and no file is longer"));
    bytes
}

impl Call {
    /// The entries that one run gives.
    fn once(&self) -> u64 {
        run(&self.operation, self.is_proved, &self.lists).expect("the operation is one of those")
    }
}

fn main() -> ExitCode {
    let words: Vec<String> = std::env::args().skip(1).collect();
    let (is_timed, words) = match words.split_first() {
        Some((first, rest)) if first == "seconds" => (true, rest),
        _ => (false, words.as_slice()),
    };
    let call = match parsed(words) {
        Ok(call) => call,
        Err(said) => {
            eprintln!("{said}");
            return ExitCode::from(2);
        }
    };
    if call.operation == "file" {
        let written = std::io::stdout().write_all(&file(&call.lists));
        return written.map_or(ExitCode::FAILURE, |()| ExitCode::SUCCESS);
    }
    if is_timed {
        let least = clock::least(call.times, || {
            call.once();
        });
        println!("{}", least.as_nanos() as f64 / 1e3);
    } else {
        println!("{}", (0..call.times).map(|_| call.once()).sum::<u64>());
    }
    ExitCode::SUCCESS
}
