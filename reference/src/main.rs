//! The binary `reference`: the second program's answers on the command line.

use std::io::{self, Read, Write};
use std::process::ExitCode;

use reference::answers::{
    check_text, graph_text, refined_text, slid_text, terminal_text, wires_text,
};
use reference::generate::{
    damaged, damaged_loaded, damaged_weighted, hostile, hostile_weighted, loaded, net, weighted,
    Damage, Hostile, Kind,
};
use reference::lists::Lists;
use reference::net::{check, Net};
use reference::netfile;
use reference::route::route;
use reference::text;

const HELP: &str = "\
reference: a plain tree router that a proved one is matched against

usage: reference COMMAND, with the input on standard input

  check              text form -> whether the net is allowed
  graph              text form -> the spanning graph's vertices and edges
  terminal           text form -> the terminal tree's paths: bridge, length, vertices
  refined            text form -> the refined tree's edges and what happened in its rounds
  slid               text form -> the slid tree's edges and what happened in its rounds
  wires              text form -> the refined tree's wires
  route              net file  -> what the program route prints
  pack               text form -> net file
  unpack             net file  -> text form
  generate KIND SEED nothing   -> text form of a net, or of hostile lists, of this kind
  damage KIND SEED   nothing   -> a damaged net file of this kind
                     With the word `weighted` after the seed, weights are of all sorts;
                     with `loaded` the loads of nets and of damaged files are too.
  kinds              nothing   -> the kinds that generate and damage take
  help               nothing   -> this text

The text form has one entry a line, `pin x y load` or `macro left bottom right top`, and at most
one line `weights x y`, without which both are 1; a load of 0 may be left out; blank lines and
comments from # to the end of the line are allowed. A seed is a whole number from 0 to 2^64 - 1.
A net or file that is refused prints `refused` and the number.

exit codes: 0 answered, refusals included; 1 a bad line, or input or output failed; 2 bad usage
";

/// Why there is no answer.
enum Failure {
    /// The command line is wrong.
    Usage(String),
    /// The input or the output is.
    Input(String),
}

fn main() -> ExitCode {
    let arguments: Vec<String> = std::env::args_os()
        .skip(1)
        .map(|argument| argument.to_string_lossy().into_owned())
        .collect();
    let words: Vec<&str> = arguments.iter().map(String::as_str).collect();
    match answer(&words).and_then(|bytes| put(&bytes)) {
        Ok(()) => ExitCode::SUCCESS,
        Err(Failure::Input(wrong)) => {
            eprintln!("reference: {wrong}");
            ExitCode::from(1)
        }
        Err(Failure::Usage(wrong)) => {
            eprintln!("reference: {wrong}; `reference help` says what there is");
            ExitCode::from(2)
        }
    }
}

/// The bytes to print for a command line.
fn answer(words: &[&str]) -> Result<Vec<u8>, Failure> {
    match words {
        ["check"] => on_net(check_text),
        ["graph"] => on_net(graph_text),
        ["terminal"] => on_net(terminal_text),
        ["refined"] => on_net(refined_text),
        ["slid"] => on_net(slid_text),
        ["wires"] => on_net(wires_text),
        ["route"] => Ok(route(&input()?).into_bytes()),
        ["pack"] => pack(),
        ["unpack"] => unpack(),
        ["generate", kind, seed] => generate(kind, seed, ""),
        ["generate", kind, seed, word @ ("weighted" | "loaded")] => generate(kind, seed, word),
        ["damage", kind, seed] => damage(kind, seed, ""),
        ["damage", kind, seed, word @ ("weighted" | "loaded")] => damage(kind, seed, word),
        ["kinds"] => Ok(kinds().into_bytes()),
        ["help" | "--help" | "-h"] => Ok(HELP.as_bytes().to_vec()),
        [] => Err(Failure::Usage("no command".into())),
        [command, ..] if HELP.contains(&format!("\n  {command} ")) => Err(Failure::Usage(format!(
            "'{command}' with other arguments than it takes"
        ))),
        [command, ..] => Err(Failure::Usage(format!("no command '{command}'"))),
    }
}

/// Standard input, whole.
fn input() -> Result<Vec<u8>, Failure> {
    let mut bytes = Vec::new();
    match io::stdin().read_to_end(&mut bytes) {
        Ok(_) => Ok(bytes),
        Err(error) => Err(Failure::Input(format!("standard input: {error}"))),
    }
}

/// Prints the answer.
fn put(bytes: &[u8]) -> Result<(), Failure> {
    let mut out = io::stdout().lock();
    out.write_all(bytes)
        .and_then(|()| out.flush())
        .map_err(|error| Failure::Input(format!("standard output: {error}")))
}

/// The lists of the text form on standard input.
fn lists() -> Result<Lists, Failure> {
    text::parse_bytes(&input()?).map_err(|bad| Failure::Input(bad.to_string()))
}

/// The answer for an allowed net in text form.
fn on_net(answer: fn(&Net) -> String) -> Result<Vec<u8>, Failure> {
    let lists = lists()?;
    let net = check(&lists.pins, &lists.macros, lists.weights);
    Ok(net.map_or_else(refused, |net| answer(&net).into_bytes()))
}

fn refused(number: u32) -> Vec<u8> {
    format!("refused {number}\n").into_bytes()
}

fn pack() -> Result<Vec<u8>, Failure> {
    let lists = lists()?;
    let net = check(&lists.pins, &lists.macros, lists.weights);
    Ok(net.map_or_else(refused, |_| netfile::write(&lists)))
}

fn unpack() -> Result<Vec<u8>, Failure> {
    let lists = netfile::read(&input()?).and_then(|lists| {
        check(&lists.pins, &lists.macros, lists.weights)?;
        Ok(lists)
    });
    Ok(lists.map_or_else(refused, |lists| text::print(&lists).into_bytes()))
}

fn generate(kind: &str, seed: &str, word: &str) -> Result<Vec<u8>, Failure> {
    let number = seed_of(seed)?;
    let lists = match (Kind::named(kind), Hostile::named(kind), word) {
        (Some(kind), _, "") => net(kind, number),
        (Some(kind), _, "weighted") => weighted(kind, number),
        (Some(kind), _, _) => loaded(&weighted(kind, number), number),
        (_, Some(kind), "") => hostile(kind, number),
        (_, Some(kind), _) => hostile_weighted(kind, number),
        _ => return Err(no_kind(kind)),
    };
    let said = format!("# {kind} {seed} {word}");
    let header = format!("{}\n", said.trim_end());
    Ok((header + &text::print(&lists)).into_bytes())
}

fn damage(kind: &str, seed: &str, word: &str) -> Result<Vec<u8>, Failure> {
    let number = seed_of(seed)?;
    let kind = Damage::named(kind).ok_or_else(|| no_kind(kind))?;
    let made = match word {
        "" => damaged,
        "weighted" => damaged_weighted,
        _ => damaged_loaded,
    };
    Ok(made(kind, number))
}

fn seed_of(seed: &str) -> Result<u64, Failure> {
    seed.parse()
        .map_err(|_| Failure::Usage(format!("'{seed}' is no seed")))
}

fn no_kind(kind: &str) -> Failure {
    Failure::Usage(format!(
        "no kind '{kind}' here, `reference kinds` lists them"
    ))
}

fn kinds() -> String {
    let line = |name: &str, about: &str| format!("  {name:<17} {about}\n");
    let nets = Kind::ALL.iter().map(|k| line(k.name(), k.about()));
    let lists = Hostile::ALL.iter().map(|k| line(k.name(), k.about()));
    let files = Damage::ALL.iter().map(|k| line(k.name(), k.about()));
    "allowed nets, for generate\n".to_string()
        + &nets.collect::<String>()
        + "hostile lists, for generate\n"
        + &lists.collect::<String>()
        + "damaged net files, for damage\n"
        + &files.collect::<String>()
}
