//! What is asked and what is said: inputs that are no nets, command lines that are nearly right, and help.

mod common;

use std::ffi::OsString;
use std::fs;
use std::os::unix::ffi::OsStringExt;
use std::os::unix::fs::PermissionsExt;
use std::path::PathBuf;
use std::process::{Command, Output, Stdio};

use common::{example, folder, printed, refused, root, run, said, word, CALZUNDI, COMMANDS};

/// An empty file was "there is no pin", which `route` does not say.
#[test]
fn an_empty_file_is_1() {
    let wrong = refused(&["route", "-"], b"", 1);
    assert!(wrong.contains("it has 0 bytes"), "{wrong}");
    let output = run(&["check", "-"], b"");
    assert!(output.stdout.starts_with(b"standard input: refused 1: "));
    refused(&["route", "-"], b"# no entry\n", 11);
}

/// Text of two bytes a letter was taken for a net file; what is left of a net file, without a zero byte, for text.
#[test]
fn what_is_neither_text_nor_net_file_is_named() {
    let wide = |text: &str, mark: &[u8], big: bool| {
        let letters = text.encode_utf16();
        let bytes = letters.flat_map(|letter| {
            if big {
                letter.to_be_bytes()
            } else {
                letter.to_le_bytes()
            }
        });
        [mark, &bytes.collect::<Vec<u8>>()].concat()
    };
    for bytes in [
        wide("pin 0 0\n", b"\xff\xfe", false),
        wide("pin 0 0\n", b"\xfe\xff", true),
        wide("# a net\npin 0 0\n", b"", false),
        wide("pin 0 0\n", b"", true),
    ] {
        let wrong = said(&["check", "-"], &bytes, 1);
        assert!(wrong.contains("it is UTF-16 or UTF-32 text"), "{wrong}");
    }
    let file = fs::read(root().join("examples/files/three-pins.net")).unwrap();
    for length in [1, 2, 5, 511] {
        let wrong = refused(&["unpack", "-"], &file[..length], 1);
        assert!(wrong.contains(&format!("it has {length} bytes")), "{wrong}");
    }
}

/// Only the first bad line was said.
#[test]
fn check_says_all_bad_lines() {
    let wrong = said(
        &["check", "-"],
        b"pin 0\npin 0 0\npan 1 1\nmacro 1 2 3\n",
        1,
    );
    assert_eq!(
        wrong,
        "calzundi check: standard input: line 1: a pin needs a number for y\n  \
         line 3: 'pan' is neither 'pin', 'macro' nor 'weights'\n  \
         line 4: a macro needs a number for top\n"
    );
    let many = "pan\n".repeat(250);
    let wrong = said(&["check", "-"], many.as_bytes(), 1);
    assert_eq!(wrong.lines().count(), 101);
    assert!(wrong.ends_with("\n  and 150 more\n"), "{wrong}");
    let wrong = said(&["route", "-"], many.as_bytes(), 1);
    let end = "line 4: 'pan' is neither 'pin', 'macro' nor 'weights'\n  and 246 more: `calzundi check` lists them\n";
    assert!(wrong.ends_with(end), "{wrong}");
}

/// A name that is no UTF-8 cost the whole batch; names with line ends could not be listed at all.
#[test]
fn names_of_any_bytes() {
    let folder = folder("names");
    let names: [&[u8]; 3] = [b"plain.txt", b"odd\xff.txt", b"two\nlines.txt"];
    let files = names.map(|name| folder.join(OsString::from_vec(name.to_vec())));
    for file in &files {
        fs::write(file, "pin 0 0\npin 4 0\n").unwrap();
    }
    let list: Vec<u8> = files
        .iter()
        .flat_map(|file| {
            let name = file.clone().into_os_string().into_vec();
            [name, vec![0]].concat()
        })
        .collect();
    let words = ["batch", "--quiet", "--csv", "--null", "--list", "-"];
    let rows = printed(&words, &list);
    assert_eq!(rows.lines().count(), 4, "{rows}");
    assert!(rows.contains("two\\nlines.txt,2,0,"), "{rows}");
    let two = [word(&files[0]).as_bytes(), b"\nno/such\xfe\n"].concat();
    let output = run(&["batch", "--quiet", "--csv", "--list", "-"], &two);
    assert_eq!(output.status.code(), Some(1));
    let rows = String::from_utf8(output.stdout).unwrap();
    let rows: Vec<&str> = rows.lines().collect();
    assert!(rows[1].contains("plain.txt,2,0,"), "{rows:?}");
    assert!(
        rows[2].contains("no/such") && rows[2].contains("No such file"),
        "{rows:?}"
    );
    said(&["batch", "--null", "x"], b"", 2);
}

/// Standard input twice was read once, and found empty the second time.
#[test]
fn standard_input_is_read_once() {
    let net = example("three-pins");
    for words in [
        &["check", "-", "-"][..],
        &["route", "-", "-"],
        &["slide", "-", "-"],
        &["best", "-", "-"],
        &["verify", "-", "-"],
        &["draw", "-", "-", "-o", "x/"],
        &["draw", "--tree", "-", "-"],
        &["draw", "--tree=-", "--routed=-", word(&net)],
        &["compare", "-", "-"],
        &["batch", "-", "-"],
        &["batch", "--list", "-", "-"],
        &["price", "-", "-"],
        &["pack", "-", "-", "-o", "x/"],
        &["unpack", "-", "-", "-o", "x/"],
    ] {
        let wrong = said(words, b"pin 0 0\n", 2);
        assert!(
            wrong.contains("can be read only once"),
            "{words:?}: {wrong}"
        );
    }
}

/// Refusals went to standard output in some commands and not in others.
#[test]
fn refusals_are_printed_by_all() {
    let net = example("overlapping");
    let tree = root().join("examples/tree.txt");
    let bands = root().join("examples/bands.txt");
    for words in [
        &["route", word(&net)][..],
        &["route", "--wires", word(&net)],
        &["slide", word(&net)],
        &["best", word(&net)],
        &["verify", word(&net), word(&tree)],
        &["compare", word(&net), word(&net)],
        &["price", word(&net), word(&bands)],
        &["distances", word(&net)],
        &["delay", word(&net), "0,0", "1", "1"],
        &["pack", word(&net)],
        &["unpack", word(&net)],
    ] {
        let wrong = refused(words, b"", 16);
        let expected = format!("calzundi {}: {}: refused 16: ", words[0], net.display());
        assert!(wrong.starts_with(&expected), "{wrong}");
    }
    let wrong = said(&["route", "-"], b"refused 16\n", 1);
    assert!(
        wrong.contains("line 1: it is a refusal that was printed"),
        "{wrong}"
    );
}

/// `help route` printed the help of the whole; a word that was nearly right got no hint.
#[test]
fn help_and_hints() {
    for command in COMMANDS {
        let own = printed(&[command, "--help"], b"");
        assert_eq!(printed(&["help", command], b""), own);
    }
    assert_eq!(printed(&["help"], b""), printed(&["--help"], b""));
    for (words, hint) in [
        (&["rotue"][..], "did you mean 'route'?"),
        (&["help", "chek"], "did you mean 'check'?"),
        (&["draw", "--slit", "x"], "did you mean '--slid'?"),
        (&["batch", "--job=3", "x"], "did you mean '--jobs'?"),
    ] {
        let wrong = said(words, b"", 2);
        assert!(wrong.contains(hint), "{wrong}");
    }
    assert!(!said(&["fly"], b"", 2).contains("did you mean"));
}

/// Help went beyond the edge of a terminal.
#[test]
fn help_fits_a_terminal() {
    let all = COMMANDS.map(|command| vec![command, "--help"]);
    for words in all.into_iter().chain([vec!["--help"]]) {
        for line in printed(&words, b"").lines() {
            assert!(line.chars().count() <= 80, "{words:?}: {line}");
        }
    }
}

/// A reader that goes away, such as `head`, was told of a broken pipe.
#[test]
fn a_broken_pipe_is_silent() {
    let net = example("three-pins");
    let nets = [word(&net)].repeat(4_000);
    for words in [&["batch", "--quiet"][..], &["route"], &["check"]] {
        let mut child = Command::new(CALZUNDI)
            .args(words)
            .args(&nets)
            .stdin(Stdio::null())
            .stdout(Stdio::piped())
            .stderr(Stdio::piped())
            .spawn()
            .unwrap();
        drop(child.stdout.take());
        let output = child.wait_with_output().unwrap();
        assert_eq!(String::from_utf8(output.stderr).unwrap(), "", "{words:?}");
        assert_eq!(output.status.code(), Some(1), "{words:?}");
    }
}

/// The names of a table's columns had two words each.
#[test]
fn a_column_has_one_word() {
    let table = printed(&["distances", word(&example("three-pins"))], b"");
    let words = table.lines().map(|line| line.split_whitespace().count());
    assert_eq!(words.collect::<Vec<usize>>(), [4, 4, 4, 4], "{table}");
}

/// `delay net.txt` said that a file was missing.
#[test]
fn what_is_missing_is_named() {
    for (words, missing) in [
        (&["delay"][..], "NET"),
        (&["delay", "x"], "DRIVER"),
        (&["delay", "x", "0,0"], "R"),
        (&["delay", "x", "0,0", "1"], "C"),
        (&["price", "x"], "BANDS"),
        (&["verify", "x"], "TREE"),
        (&["compare", "x"], "B"),
        (&["draw"], "NET"),
        (&["draw", "x", "-o"], "-o needs a file, or a folder/"),
    ] {
        let wrong = said(words, b"", 2);
        let expected = if missing.starts_with('-') {
            format!(": {missing}; ")
        } else {
            format!(": {missing} is missing; ")
        };
        assert!(wrong.contains(&expected), "{wrong}");
    }
}

/// Tools that do nothing but note that they were called, before all others on the path.
fn idle_tools(name: &str) -> (PathBuf, String) {
    let folder = folder(name);
    for name in ["rt", "cargo", "valgrind"] {
        let tool = folder.join(name);
        fs::write(&tool, "#!/bin/sh\necho \"$@\" >>\"$0.called\"\n").unwrap();
        fs::set_permissions(&tool, fs::Permissions::from_mode(0o755)).unwrap();
    }
    let path = format!("{}:{}", word(&folder), std::env::var("PATH").unwrap());
    (folder, path)
}

/// A line of a shell in the repository's root, with tools that do nothing.
fn idly(path: &str, line: &str) -> Output {
    let mut command = Command::new("timeout");
    command.args(["60", "bash", "-c", line]);
    command.current_dir(root()).env("PATH", path);
    command.output().unwrap()
}

/// `./test --help` ran every test, and `./bench --help` looked for a folder of that name.
#[test]
fn scripts_say_what_they_do() {
    let (folder, path) = idle_tools("scripts");
    for script in ["run", "test", "bench", "package"] {
        for flag in ["--help", "-h"] {
            let output = idly(&path, &format!("./{script} {flag}"));
            let text = String::from_utf8(output.stdout).unwrap();
            assert_eq!(output.status.code(), Some(0), "{script} {flag}");
            assert!(text.starts_with(script), "{text}");
            assert_eq!(output.stderr, b"", "{script}");
        }
        let output = idly(&path, &format!("./{script} --nonsense a b"));
        assert_eq!(output.status.code(), Some(2), "{script}");
    }
    let called = fs::read_dir(&folder).unwrap().count();
    assert_eq!(called, 3, "no tool was called");
}

/// `./run` made the library anew each time: now only where something that it is made of has changed.
#[test]
fn run_makes_the_library_once() {
    let (folder, path) = idle_tools("once");
    let called = || {
        let log = folder.join("rt.called");
        let said = fs::read_to_string(&log).unwrap_or_default();
        let _ = fs::remove_file(&log);
        said
    };
    let library = |name: &str| {
        let line = format!("build={}/build tools/library", word(&folder));
        let output = idly(&path, &line);
        let wrong = String::from_utf8_lossy(&output.stderr).into_owned();
        assert_eq!(output.status.code(), Some(0), "{name}: {wrong}");
    };
    let made = || called().lines().filter(|line| *line == "lib").count();
    library("first");
    assert_eq!(made(), 1);
    library("again");
    assert_eq!(made(), 0);
    let stamp = folder.join("build/library.stamp");
    fs::write(&stamp, "of another library\n").unwrap();
    library("after a change");
    assert_eq!(made(), 1);
}

/// The page of a package did not say that `route` needs a C library, nor why there is no build for Arm.
#[test]
fn the_package_says_what_it_needs() {
    let page = fs::read_to_string(root().join("docs/PACKAGE.md")).unwrap();
    let mut objdump = Command::new("objdump");
    let symbols = objdump.arg("-T").arg(root().join("target/bin/route"));
    let symbols = String::from_utf8(symbols.output().unwrap().stdout).unwrap();
    let versions = symbols.split("GLIBC_").skip(1).map(|rest| {
        let version = rest.split(|c: char| c != '.' && !c.is_ascii_digit());
        let numbers = version.into_iter().next().unwrap().split('.');
        numbers
            .map(|number| number.parse().unwrap())
            .collect::<Vec<u32>>()
    });
    let most = versions.max().expect("route is linked with the C library");
    let most: Vec<String> = most.iter().map(u32::to_string).collect();
    let needed = format!("glibc {} or\n", most.join("."));
    assert!(page.contains(&needed), "{needed}");
    assert!(page.contains("no\nbuild for Arm"));
}
