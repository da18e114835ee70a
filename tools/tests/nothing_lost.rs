//! No file of a user's is written over by accident, and none is left half written.

mod common;

use std::fs;
use std::os::unix::fs::{symlink, MetadataExt, PermissionsExt};
use std::path::{Path, PathBuf};
use std::process::Command;

use common::{example, folder, printed, refused, run, said, shell, word, CALZUNDI};

const TWO: [&str; 2] = ["pin 0 0\npin 4 0\n", "pin 0 0\npin 7 7\n"];

/// A folder with two nets as text and as net files.
fn nets(name: &str) -> (PathBuf, [PathBuf; 4]) {
    let folder = folder(name);
    let files = ["a.txt", "b.txt", "a.net", "b.net"].map(|name| folder.join(name));
    for (at, text) in TWO.iter().enumerate() {
        fs::write(&files[at], text).unwrap();
        let bytes = run(&["pack", word(&files[at])], b"").stdout;
        fs::write(&files[at + 2], bytes).unwrap();
    }
    (folder, files)
}

/// `unpack *.net`, `pack *.txt` and `draw *.txt` with a pattern that matched two files replaced the second net by the first.
#[test]
fn a_second_word_is_no_output() {
    let (_, files) = nets("second-word");
    let before = files.each_ref().map(|file| fs::read(file).unwrap());
    for (command, one, other) in [
        ("unpack", 2, 3),
        ("pack", 0, 1),
        ("draw", 0, 1),
        ("draw", 2, 3),
    ] {
        let wrong = said(&[command, word(&files[one]), word(&files[other])], b"", 2);
        assert!(wrong.contains("is taken for a net"), "{wrong}");
        assert!(wrong.contains("-o FILE"), "{wrong}");
    }
    assert_eq!(files.each_ref().map(|file| fs::read(file).unwrap()), before);
}

/// A net stays unless it is the same, or `--force` is given; what is no net may be replaced.
#[test]
fn a_net_is_written_over_by_force_alone() {
    let (folder, [a, b, a_net, b_net]) = nets("force");
    for (words, kept) in [
        (["pack", word(&a), "-o", word(&b_net)], &b_net),
        (["unpack", word(&a_net), "-o", word(&b)], &b),
        (["draw", word(&a), "-o", word(&b)], &b),
        (["route", word(&a), "-o", word(&b_net)], &b_net),
        (["slide", word(&a), "--output", word(&b)], &b),
        (["best", word(&a), "-o", word(&b)], &b),
    ] {
        let before = fs::read(kept).unwrap();
        let wrong = said(&words, b"", 1);
        assert!(
            wrong.contains(": it is a net; --force writes over it"),
            "{wrong}"
        );
        assert_eq!(fs::read(kept).unwrap(), before, "{words:?}");
    }
    // A damaged net file is a net too.
    let mut bytes = fs::read(&b_net).unwrap();
    bytes[600] ^= 1;
    fs::write(&b_net, &bytes).unwrap();
    let words = ["pack", word(&a), "-o", word(&b_net)];
    assert!(said(&words, b"", 1).contains("it is a net"));
    printed(&["pack", "--force", word(&a), "-o", word(&b_net)], b"");
    assert_eq!(fs::read(&b_net).unwrap(), fs::read(&a_net).unwrap());
    // The same bytes are written as often as one likes.
    printed(&words, b"");
    let other = folder.join("other");
    fs::write(&other, "no net\n").unwrap();
    printed(&["pack", word(&a), "-o", word(&other)], b"");
    assert_eq!(fs::read(&other).unwrap(), fs::read(&a_net).unwrap());
    // By force too, what is read stays.
    let wrong = said(&["pack", "--force", word(&a), "-o", word(&a)], b"", 2);
    assert!(wrong.contains("it is not written over"), "{wrong}");
}

/// Many nets go to a folder, each under its own name; a net that is refused costs no other.
#[test]
fn many_nets_go_to_a_folder() {
    let (folder, [a, b, a_net, b_net]) = nets("many");
    let out = folder.join("out/");
    let slash = format!("{}/", word(&out).trim_end_matches('/'));
    for (command, ending) in [
        ("pack", "net"),
        ("unpack", "txt"),
        ("draw", "svg"),
        ("route", "tree"),
        ("slide", "tree"),
        ("best", "tree"),
    ] {
        let _ = fs::remove_dir_all(&out);
        printed(&[command, word(&a), word(&b), "-o", &slash], b"");
        for (name, net) in [("a", &a), ("b", &b)] {
            let made = fs::read(out.join(format!("{name}.{ending}"))).unwrap();
            assert_eq!(made, run(&[command, word(net)], b"").stdout, "{command}");
        }
        assert_eq!(fs::read_dir(&out).unwrap().count(), 2);
    }
    assert_eq!(fs::read_to_string(&a).unwrap(), TWO[0]);
    // Two nets of one name, and a file that is no folder.
    let wrong = said(&["draw", word(&a), word(&a_net), "-o", &slash], b"", 2);
    assert!(wrong.contains("would be one file in the folder"), "{wrong}");
    let wrong = said(&["draw", word(&a), word(&b), "-o", "net.svg"], b"", 2);
    assert!(wrong.contains("many nets go to a folder"), "{wrong}");
    let overlapping = example("overlapping");
    let words = ["pack", word(&overlapping), word(&b), "-o", &slash];
    let wrong = refused(&words, b"", 16);
    assert!(wrong.contains("overlapping.txt: refused 16"), "{wrong}");
    assert_eq!(
        fs::read(out.join("b.net")).unwrap(),
        fs::read(&b_net).unwrap()
    );
    assert!(!out.join("overlapping.net").exists());
}

/// Lines of several nets are printed one after the other, each after its name.
#[test]
fn many_nets_are_printed() {
    let (_, [a, b, ..]) = nets("printed");
    for command in ["route", "slide", "best"] {
        let both = printed(&[command, word(&a), word(&b)], b"");
        let each = [&a, &b].map(|net| {
            let one = printed(&[command, word(net)], b"");
            format!("# {}\n{one}", net.display())
        });
        assert_eq!(both, each.concat());
    }
    let overlapping = example("overlapping");
    let output = run(&["route", word(&overlapping), word(&a)], b"");
    assert_eq!(output.status.code(), Some(1));
    let text = String::from_utf8(output.stdout).unwrap();
    let expected = format!(
        "# {}\nrefused 16\n# {}\npins 2 ",
        overlapping.display(),
        a.display()
    );
    assert!(text.starts_with(&expected), "{text}");
}

/// A write-protected file was replaced, mode and all.
#[test]
fn a_write_protected_file_is_left_alone() {
    let (folder, [a, ..]) = nets("protected");
    let file = folder.join("kept.svg");
    fs::write(&file, "kept").unwrap();
    fs::set_permissions(&file, fs::Permissions::from_mode(0o444)).unwrap();
    for force in [&[][..], &["--force"]] {
        let words = [&["draw", word(&a), "-o", word(&file)], force].concat();
        let wrong = said(&words, b"", 1);
        assert!(wrong.contains("kept.svg: it is write-protected"), "{wrong}");
    }
    assert_eq!(fs::read(&file).unwrap(), b"kept");
    assert_eq!(fs::metadata(&file).unwrap().mode() & 0o777, 0o444);
    assert_eq!(fs::read_dir(&folder).unwrap().count(), 5);
}

/// A link that led nowhere was replaced by the file; a name of 255 bytes was "too long".
#[test]
fn dangling_links_and_long_names() {
    let (folder, [a, ..]) = nets("links");
    let (link, next, target) = (
        folder.join("link"),
        folder.join("next"),
        folder.join("inner/target"),
    );
    fs::create_dir(folder.join("inner")).unwrap();
    symlink("next", &link).unwrap();
    symlink("inner/target", &next).unwrap();
    printed(&["draw", word(&a), "-o", word(&link)], b"");
    assert!(fs::symlink_metadata(&link).unwrap().is_symlink());
    assert!(fs::symlink_metadata(&next).unwrap().is_symlink());
    assert!(fs::read(&target).unwrap().starts_with(b"<svg "));
    let (one, other) = (folder.join("round"), folder.join("about"));
    symlink("about", &one).unwrap();
    symlink("round", &other).unwrap();
    let wrong = said(&["draw", word(&a), "-o", word(&one)], b"", 1);
    assert!(wrong.contains("round: "), "{wrong}");
    assert!(fs::symlink_metadata(&one).unwrap().is_symlink());
    let long = folder.join(format!("{}.svg", "n".repeat(251)));
    printed(&["draw", word(&a), "-o", word(&long)], b"");
    assert!(fs::read(&long).unwrap().starts_with(b"<svg "));
}

/// The program as somebody who owns nothing here: root may write everywhere.
fn as_nobody(words: &[&str], program: &Path) -> std::process::Output {
    let is_root = fs::metadata("/proc/self").unwrap().uid() == 0;
    let mut command = if is_root {
        let mut command = Command::new("setpriv");
        command.args(["--reuid=65534", "--regid=65534", "--clear-groups", "--"]);
        command.arg(program);
        command
    } else {
        Command::new(program)
    };
    command.args(words).output().unwrap()
}

/// A file that may be written, in a folder that may not, could not be.
#[test]
fn a_file_in_a_closed_folder_is_written_in_place() {
    let folder = std::env::temp_dir().join(format!("calzundi-closed-{}", std::process::id()));
    let closed = folder.join("closed");
    fs::create_dir_all(&closed).unwrap();
    let (program, net, file) = (
        folder.join("calzundi"),
        folder.join("net.txt"),
        closed.join("net.svg"),
    );
    fs::copy(CALZUNDI, &program).unwrap();
    fs::write(&net, TWO[0]).unwrap();
    fs::write(&file, "x".repeat(100_000)).unwrap();
    for (path, mode) in [
        (&folder, 0o755),
        (&closed, 0o555),
        (&net, 0o644),
        (&file, 0o666),
        (&program, 0o755),
    ] {
        fs::set_permissions(path, fs::Permissions::from_mode(mode)).unwrap();
    }
    let output = as_nobody(&["draw", word(&net), "-o", word(&file)], &program);
    let wrong = String::from_utf8(output.stderr).unwrap();
    let picture = fs::read(&file).unwrap();
    // A new file cannot stand there, and that is said.
    let new = closed.join("new.svg");
    let refused = as_nobody(&["draw", word(&net), "-o", word(&new)], &program);
    fs::set_permissions(&closed, fs::Permissions::from_mode(0o755)).unwrap();
    fs::remove_dir_all(&folder).unwrap();
    assert_eq!(output.status.code(), Some(0), "{wrong}");
    assert!(
        wrong.contains("written in place, which is not atomic"),
        "{wrong}"
    );
    assert!(picture.starts_with(b"<svg ") && picture.ends_with(b"</svg>\n"));
    assert_eq!(refused.status.code(), Some(1));
    let wrong = String::from_utf8(refused.stderr).unwrap();
    assert!(wrong.contains("new.svg: Permission denied"), "{wrong}");
}

/// Programs in containers may have one number and share a folder: the new file of one, named by its number alone, was removed by the other.
#[test]
fn a_new_file_is_nobody_elses() {
    let (folder, [a, ..]) = nets("same-number");
    let file = folder.join("a.svg");
    // The shell becomes the program, which so has the shell's number.
    let line = "printf other > \"$1/.calzundi-$$.new\"; exec \"$0\" draw \"$2\" -o \"$3\"";
    let (status, wrong) = shell(line, &[word(&folder), word(&a), word(&file)]);
    assert_eq!((status, wrong.as_str()), (Some(0), ""));
    assert!(fs::read(&file).unwrap().starts_with(b"<svg "));
    let all = fs::read_dir(&folder).unwrap().map(|entry| entry.unwrap());
    let new: Vec<PathBuf> = all.map(|entry| entry.path()).collect();
    let new: Vec<&PathBuf> = new
        .iter()
        .filter(|path| word(path).ends_with(".new"))
        .collect();
    assert_eq!(new.len(), 1);
    assert_eq!(fs::read(new[0]).unwrap(), b"other");
}

/// A net that cannot be read any more, for a bad line, its letters, a cut, damage or its length, was taken for no net.
#[test]
fn a_net_that_cannot_be_read_is_kept_too() {
    let (folder, [a, _, a_net, _]) = nets("unread");
    let wide = |order: fn(u16) -> [u8; 2], mark: &str| -> Vec<u8> {
        let letters = format!("{mark}# mine\n{}", TWO[1]);
        letters.encode_utf16().flat_map(order).collect()
    };
    let file = fs::read(&a_net).unwrap();
    let damaged = |at: usize, to: u8| {
        let mut bytes = file.clone();
        bytes[at] = to;
        bytes
    };
    let long = format!("pin 0 0\n{}pin 4 0\n", "# more\n".repeat(200_000));
    let mut kept = vec![
        b"pin 0 0\npin 4 O\nmacro 1 1 2 2\n".to_vec(),
        b"macro 1 1 2\n".to_vec(),
        b"something\npin 0\n".to_vec(),
        b"# only this\nweights 2 3\n".to_vec(),
        b"\xef\xbb\xbfpin 0 0 \xff\n".to_vec(),
        b"# by an old editor\rpin 0 0\rpin 4 0\r".to_vec(),
        b"pin 0 0\npin 4\0 0\n".to_vec(),
        long.into_bytes(),
        damaged(0, 7),
        damaged(4, 9),
        damaged(8, 9),
        [file.clone(), vec![0; 100]].concat(),
    ];
    kept.extend([
        wide(u16::to_le_bytes, "\u{feff}"),
        wide(u16::to_le_bytes, ""),
    ]);
    kept.extend([
        wide(u16::to_be_bytes, "\u{feff}"),
        wide(u16::to_be_bytes, ""),
    ]);
    kept.extend([4, 300, 512, 700, 1023].map(|length| file[..length].to_vec()));
    let out = folder.join("out");
    let words = ["draw", word(&a), "-o", word(&out)];
    for before in &kept {
        fs::write(&out, before).unwrap();
        let wrong = said(&words, b"", 1);
        let start = String::from_utf8_lossy(&before[..before.len().min(40)]);
        assert!(wrong.contains("it is a net; --force"), "{start}: {wrong}");
        assert!(fs::read(&out).unwrap() == *before, "{start}");
    }
    printed(&[&words[..], &["--force"]].concat(), b"");
    // What the program itself makes, and what is empty or about something else, is no net.
    for other in [&b""[..], b"pins and needles\n", b"# pin 0 0\n", &[0; 2000]] {
        fs::write(&out, other).unwrap();
        printed(&words, b"");
    }
    for made in [
        &["draw", "--html"][..],
        &["draw"],
        &["route"],
        &["route", "--json"],
        &["export", "--gds"],
        &["export", "--def"],
    ] {
        let net = example("eight-pins");
        let words = [made, &[word(&net), "-o", word(&out)]].concat();
        printed(&words, b"");
    }
}

/// A file that may be written and not read was replaced.
#[test]
fn a_file_that_cannot_be_read_is_kept() {
    let folder = std::env::temp_dir().join(format!("calzundi-unread-{}", std::process::id()));
    fs::create_dir_all(&folder).unwrap();
    let (program, net, file) = (
        folder.join("calzundi"),
        folder.join("net.txt"),
        folder.join("other.txt"),
    );
    fs::copy(CALZUNDI, &program).unwrap();
    fs::write(&net, TWO[0]).unwrap();
    fs::write(&file, TWO[1]).unwrap();
    for (path, mode) in [
        (&folder, 0o777),
        (&net, 0o644),
        (&file, 0o222),
        (&program, 0o755),
    ] {
        fs::set_permissions(path, fs::Permissions::from_mode(mode)).unwrap();
    }
    let words = ["draw", word(&net), "-o", word(&file)];
    let output = as_nobody(&words, &program);
    let own = fs::metadata("/proc/self").unwrap().uid() != 0;
    if own {
        fs::set_permissions(&file, fs::Permissions::from_mode(0o644)).unwrap();
    }
    let kept = fs::read(&file).unwrap();
    fs::remove_dir_all(&folder).unwrap();
    let wrong = String::from_utf8(output.stderr).unwrap();
    assert_eq!(output.status.code(), Some(1), "{wrong}");
    assert!(
        wrong.contains("other.txt: it is there and cannot be read"),
        "{wrong}"
    );
    assert_eq!(kept, TWO[1].as_bytes());
}

/// By the name of a descriptor the file behind it was replaced, and what it held was lost.
#[test]
fn a_descriptor_is_written_to() {
    let (folder, [a, b, ..]) = nets("descriptors");
    let log = folder.join("log");
    let link = folder.join("link");
    symlink("/dev/stdout", &link).unwrap();
    let picture = String::from_utf8(run(&["draw", word(&a)], b"").stdout).unwrap();
    for (line, name) in [
        ("\"$0\" draw \"$1\" -o \"$3\" >> \"$2\"", "/dev/stdout"),
        ("\"$0\" draw \"$1\" -o \"$3\" >> \"$2\"", word(&link)),
        ("\"$0\" draw \"$1\" -o \"$3\" >> \"$2\"", "/dev/fd/1"),
        ("\"$0\" draw \"$1\" -o \"$3\" >> \"$2\"", "/proc/self/fd/1"),
        ("\"$0\" draw \"$1\" -o \"$3\" 2>> \"$2\"", "/dev/stderr"),
        ("\"$0\" draw \"$1\" -o \"$3\" 7>> \"$2\"", "/dev/fd/7"),
        (
            "exec 8>> \"$2\"; \"$0\" draw \"$1\" -o \"/proc/$$/fd/8\"; exit $?",
            "",
        ),
    ] {
        // A log that looks like a net is no reason not to go on with it.
        let before = "pin 0 0\nof the day before\n";
        fs::write(&log, before).unwrap();
        let number = fs::metadata(&log).unwrap().ino();
        let (status, wrong) = shell(line, &[word(&a), word(&log), name]);
        assert_eq!((status, wrong.as_str()), (Some(0), ""), "{line} {name}");
        let after = fs::read_to_string(&log).unwrap();
        assert!(after == format!("{before}{picture}"), "{line} {name}");
        assert_eq!(fs::metadata(&log).unwrap().ino(), number, "{line} {name}");
    }
    // What is printed before and after stands before and after.
    let line = "(echo one; \"$0\" draw \"$1\" -o /dev/stdout; echo two) > \"$2\"";
    let (status, _) = shell(line, &[word(&a), word(&log)]);
    assert_eq!(status, Some(0));
    let after = fs::read_to_string(&log).unwrap();
    assert!(after == format!("one\n{picture}two\n"));
    // One that is not open is none.
    let wrong = said(&["draw", word(&a), "-o", "/dev/fd/77"], b"", 1);
    assert!(wrong.contains("/dev/fd/77: "), "{wrong}");
    // What is read stays by this name too.
    let line = "\"$0\" draw \"$1\" -o /dev/stdout >> \"$1\"";
    let (status, wrong) = shell(line, &[word(&b)]);
    assert_eq!(status, Some(2));
    assert!(wrong.contains("it is not written over"), "{wrong}");
    assert_eq!(fs::read_to_string(&b).unwrap(), TWO[1]);
}
