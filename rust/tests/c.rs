//! The header beside the crate, and the examples in C: strict, built, run.

use std::fs;
use std::path::{Path, PathBuf};
use std::process::{Command, Output};

use calzundi::stack;
use calzundi::{Net, Refusal};

const STRICT: [&str; 6] = [
    "-std=c99",
    "-Wall",
    "-Wextra",
    "-Wpedantic",
    "-Wconversion",
    "-Werror",
];

fn root() -> PathBuf {
    Path::new(env!("CARGO_MANIFEST_DIR")).join("..")
}

fn run(command: &mut Command) -> Output {
    command
        .output()
        .unwrap_or_else(|error| panic!("{command:?}: {error}"))
}

/// What a program prints that must succeed.
fn printed(command: &mut Command) -> String {
    let output = run(command);
    let wrong = String::from_utf8_lossy(&output.stderr);
    assert!(output.status.success(), "{command:?}: {wrong}");
    String::from_utf8(output.stdout).unwrap()
}

/// Builds a program of C with the library.
fn built(name: &str, source: &Path) -> PathBuf {
    let program = Path::new(env!("CARGO_TARGET_TMPDIR")).join(name);
    let mut gcc = Command::new("gcc");
    gcc.current_dir(root()).args(STRICT).arg("-Iinclude");
    gcc.arg(source).arg("target/staticlib/libexports.a");
    printed(gcc.arg("-o").arg(&program));
    program
}

/// What a page of C with the header prints.
fn told(name: &str, body: &str) -> String {
    let source = Path::new(env!("CARGO_TARGET_TMPDIR")).join(format!("{name}.c"));
    let text = format!("#include <stdio.h>\n#include \"calzundi.h\"\nint main(void)\n{{\n{body}    return 0;\n}}\n");
    fs::write(&source, text).unwrap();
    printed(&mut Command::new(built(name, &source)))
}

/// The words for a refusal are the same in C and in Rust, and so are the bounds, the stack and the version.
#[test]
fn header_and_crate_say_the_same() {
    let (mut body, mut expected) = (String::new(), String::new());
    for number in -1..60 {
        body += &format!("    puts(calzundi_refusal_text({number}));\n");
        let words = match (number, Refusal::from_number(number)) {
            (0, _) => "allowed",
            (_, Some(refusal)) => refusal.meaning(),
            (_, None) => "no refusal has this number",
        };
        expected += &format!("{words}\n");
    }
    for (name, number) in [
        ("CALZUNDI_PINS", calzundi::PINS),
        ("CALZUNDI_MACROS", calzundi::MACROS),
        ("CALZUNDI_COORDINATE", calzundi::COORDINATE as usize),
        ("CALZUNDI_GRID_PINS", calzundi::GRID_PINS),
        ("CALZUNDI_GRID_MACROS", calzundi::GRID_MACROS),
        ("CALZUNDI_WEIGHT", calzundi::WEIGHT as usize),
        ("CALZUNDI_RATE", calzundi::RATE as usize),
        ("CALZUNDI_BOUGHT_EDGES", calzundi::BOUGHT_EDGES),
        ("CALZUNDI_BOUND_LEFT", calzundi::BOUND_LEFT),
        ("CALZUNDI_BOUND_ROWS", calzundi::BOUND_ROWS),
        ("CALZUNDI_BLOCK_BYTES", calzundi::BLOCK_BYTES),
        ("CALZUNDI_LONGEST_FILE", calzundi::LONGEST_FILE),
        ("CALZUNDI_STACK_BYTES", calzundi::STACK_BYTES),
        ("CALZUNDI_STACK_CHECK", stack::CHECK),
        ("CALZUNDI_STACK_GRAPH", stack::GRAPH),
        ("CALZUNDI_STACK_TERMINAL_TREE", stack::TERMINAL_TREE),
        ("CALZUNDI_STACK_REFINED_TREE", stack::REFINED_TREE),
        ("CALZUNDI_STACK_SLID_TREE", stack::SLID_TREE),
        ("CALZUNDI_STACK_WIRES", stack::WIRES),
        ("CALZUNDI_STACK_BEST_TREE", stack::BEST_TREE),
        ("CALZUNDI_STACK_LOWER_BOUND", stack::LOWER_BOUND),
        ("CALZUNDI_STACK_GRID_DISTANCES", stack::GRID_DISTANCES),
        ("CALZUNDI_STACK_DELAY", stack::DELAY),
        ("CALZUNDI_STACK_PRICE", stack::PRICE),
        ("CALZUNDI_STACK_CHECK_TREE", stack::CHECK_TREE),
        ("CALZUNDI_STACK_WRITE_FILE", stack::WRITE_FILE),
        ("CALZUNDI_STACK_READ_FILE", stack::READ_FILE),
    ] {
        body += &format!("    printf(\"%d\\n\", (int)({name}));\n");
        expected += &format!("{number}\n");
    }
    body += "    puts(CALZUNDI_VERSION);\n";
    expected += &format!("{}\n", calzundi::VERSION);
    assert_eq!(told("texts", &body), expected);
}

/// The library's version is the header's, and its lists mean what the header says of a pin.
#[test]
fn the_library_says_its_version() {
    let numbers = calzundi::VERSION.split_once('.').unwrap();
    let version = (numbers.0.parse().unwrap(), numbers.1.parse().unwrap());
    assert_eq!(calzundi::lent::version(), version);
    let body = "    printf(\"%u %u\\n\", (unsigned)calzundi_version(), (unsigned)calzundi_lists_since_1_12());\n";
    let expected = format!(
        "{} {}\n",
        version.0 * 1000 + version.1,
        calzundi::PIN_NUMBERS
    );
    assert_eq!(told("version", body), expected);
}

/// A library that has the calls but says nothing of its lists, or something else, as one of before 1.12 or of a later meaning does.
fn another_library(name: &str, more: &str) -> PathBuf {
    let folder = Path::new(env!("CARGO_TARGET_TMPDIR"));
    let (source, object) = (
        folder.join(format!("{name}.c")),
        folder.join(format!("{name}.o")),
    );
    let archive = folder.join(format!("lib{name}.a"));
    fs::write(
        &source,
        format!("int calzundi_check(void) {{ return 0; }}\n{more}\n"),
    )
    .unwrap();
    printed(
        Command::new("gcc")
            .arg("-c")
            .arg(&source)
            .arg("-o")
            .arg(&object),
    );
    let _ = fs::remove_file(&archive);
    printed(Command::new("ar").arg("rcs").arg(&archive).arg(&object));
    archive
}

/// A caller with this header was linked silently with a library of before 1.12, for which a pin is two numbers.
#[test]
fn a_library_with_other_lists_is_not_linked() {
    let folder = Path::new(env!("CARGO_TARGET_TMPDIR"));
    let source = folder.join("caller.c");
    let call = "calzundi_check(0, 0, 0, 0, 1, 1)";
    fs::write(
        &source,
        format!("#include \"calzundi.h\"\nint main(void) {{ return {call} == 11; }}\n"),
    )
    .unwrap();
    let linked = |library: &Path, flags: &[&str]| {
        let mut gcc = Command::new("gcc");
        gcc.current_dir(root())
            .args(flags)
            .arg("-Iinclude")
            .arg(&source);
        run(gcc.arg(library).arg("-o").arg(folder.join("caller")))
    };
    let older = another_library("older", "");
    let later = another_library("later", "int calzundi_lists_since_9_9(void) { return 0; }");
    let dropping: &[&str] = &[
        "-O2",
        "-ffunction-sections",
        "-fdata-sections",
        "-Wl,--gc-sections",
    ];
    let cpp: &[&str] = &["-x", "c++"];
    for flags in [&[], dropping] {
        for library in [&older, &later] {
            let output = run_words(linked(library, flags));
            assert!(output.contains("calzundi_lists_since_1_12"), "{output}");
        }
        let own = linked(Path::new("target/staticlib/libexports.a"), flags);
        assert!(
            own.status.success(),
            "{}",
            String::from_utf8_lossy(&own.stderr)
        );
    }
    let without = linked(&older, &["-DCALZUNDI_WITHOUT_LIBRARY"]);
    assert!(
        without.status.success(),
        "{}",
        String::from_utf8_lossy(&without.stderr)
    );
    let mut gpp = Command::new("g++");
    gpp.current_dir(root())
        .args(cpp)
        .args(["-Wall", "-Wextra", "-Werror", "-Iinclude"]);
    let output = run_words(run(gpp
        .arg(&source)
        .args(["-x", "none"])
        .arg(&older)
        .arg("-o")
        .arg(folder.join("caller"))));
    assert!(output.contains("calzundi_lists_since_1_12"), "{output}");
}

/// What a command says that must fail.
fn run_words(output: Output) -> String {
    assert!(!output.status.success());
    String::from_utf8(output.stderr).unwrap()
}

/// The crate's build says with words which library it does not take.
#[test]
fn the_crate_refuses_a_library_with_other_lists() {
    let program = Path::new(env!("CARGO_TARGET_TMPDIR")).join("build-script");
    let mut rustc = Command::new(std::env::var("RUSTC").unwrap_or("rustc".into()));
    rustc
        .current_dir(root().join("rust"))
        .env("CARGO_MANIFEST_DIR", env!("CARGO_MANIFEST_DIR"));
    printed(
        rustc
            .args(["--edition", "2021", "build.rs", "-o"])
            .arg(&program),
    );
    let with = |library: &Path| run(Command::new(&program).env("CALZUNDI_LIBRARY", library));
    let older = run_words(with(&another_library("crate_older", "")));
    assert!(
        older.contains("libcrate_older.a: it does not say what its lists mean"),
        "{older}"
    );
    let more = "int calzundi_lists_since_9_9(void) { return 0; }";
    let later = run_words(with(&another_library("crate_later", more)));
    let words =
        "its lists mean what they do since version 9.9, and this crate hands over those since 1.12";
    assert!(later.contains(words), "{later}");
    assert!(with(&root().join("target/staticlib/libexports.a"))
        .status
        .success());
}

/// C++ takes the header too.
#[test]
fn the_header_is_cpp() {
    let mut cpp = Command::new("g++");
    cpp.current_dir(root())
        .args(["-x", "c++", "-Wall", "-Wextra", "-Werror"]);
    printed(cpp.args(["-fsyntax-only", "include/calzundi.h"]));
}

/// The example with a macro, a file and wires, with its own net, with a file, and with one that is refused.
#[test]
fn the_example_with_a_file_and_wires() {
    let program = built("net_file", Path::new("examples/net_file.c"));
    let lines = |net: &Net| -> String {
        let wires = net.wires().unwrap();
        let line = |wire: &calzundi::Wire| {
            let (a, b) = (wire.start, wire.end);
            format!("{} {} {} {}\n", a.x, a.y, b.x, b.y)
        };
        wires.iter().map(line).collect()
    };
    let own = Net::new([(0, 0), (10, 0)], [(4, -2, 6, 3)]).with_weights(1, 3);
    assert_eq!(printed(&mut Command::new(&program)), lines(&own));
    let file = root().join("examples/files/eight-pins.net");
    let net = Net::from_file(&fs::read(&file).unwrap()).unwrap();
    assert_eq!(printed(Command::new(&program).arg(&file)), lines(&net));
    let output = run(Command::new(&program).arg("no/such/file"));
    assert_eq!(output.status.code(), Some(1));
    assert_eq!(
        String::from_utf8(output.stderr).unwrap(),
        "refused 1: the file is not 1 to 10 whole blocks\n"
    );
}

/// The example in Rust, which is built with the tests.
#[test]
fn the_example_in_rust() {
    let tests = std::env::current_exe().unwrap();
    let built = tests.parent().unwrap().with_file_name("examples");
    let text = printed(&mut Command::new(built.join("route")));
    assert!(
        text.starts_with("4 edges, metal to lay 22\n0 0 to 4 0\n"),
        "{text}"
    );
    assert!(text.ends_with("\n1536 bytes\n"), "{text}");
}
