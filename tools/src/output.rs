//! Where what is made of nets goes: to standard output, to `-o FILE`, or of many nets to `-o FOLDER/`. No net is written over by accident.

use std::ffi::{OsStr, OsString};
use std::fs;
use std::os::unix::ffi::OsStrExt;
use std::path::{Path, PathBuf};

use crate::json::{about, object, quoted, several};
use crate::program::{Failure, Words, FORCE, JSON, OUTPUT};
use crate::source::is_net;
use crate::streams::{keep, name, say, there, write, MOST_BYTES};
use crate::told::{printed, tell, words as said};

/// What a command makes of a net.
pub struct Product {
    pub command: &'static str,
    /// What the name of its file ends with, in a folder.
    pub ending: &'static str,
    pub form: Form,
}

/// In which form it goes to standard output.
#[derive(Clone, Copy, PartialEq, Eq)]
pub enum Form {
    /// Lines, those of several nets one after the other, each after a comment with its name.
    Text,
    /// JSON, that of several nets an array.
    Json,
    /// A file, one alone; with `--json` an object says where it was written.
    File,
}

/// Bytes that were made, and what is wrong with the net that they show.
pub struct Made {
    pub bytes: Vec<u8>,
    pub but: Option<Failure>,
}

impl From<String> for Made {
    fn from(text: String) -> Made {
        let (bytes, but) = (text.into_bytes(), None);
        Made { bytes, but }
    }
}

/// Makes something of each net and puts it where it goes. A net of several that fails is told, and the others go on.
pub fn each(
    words: &Words,
    product: &Product,
    make: impl Fn(&OsString) -> Result<Made, Failure>,
) -> Result<(), Failure> {
    let places = places(words, product)?;
    let report = product.form == Form::File && words.has(JSON.name);
    if report && places.contains(&None) {
        let wanted = "--json says what was written where: it needs -o FILE";
        return Err(Failure::Usage(wanted.into()));
    }
    // A name that is wrong stops all of it before the first file is written.
    let inputs: Vec<Option<&OsString>> = words.inputs().map(Some).collect();
    for file in places.iter().flatten() {
        keep(file, &inputs)?;
        named_right(file, product.ending)?;
    }
    let many = places.len() > 1;
    let json = words.has(JSON.name);
    let mut written_files = 0;
    let (mut objects, mut answer) = (Vec::new(), Ok(()));
    for (net, place) in words.files.iter().zip(&places) {
        let mut done = || -> Result<(), Failure> {
            if many && place.is_none() && product.form == Form::Text {
                write(None, format!("# {}\n", name(Some(net))).as_bytes(), &[])?;
            }
            let Made { bytes, but } = make(net)?;
            match place {
                Some(file) => {
                    put(words, file, &bytes)?;
                    written_files += 1;
                    if let Some(but) = but {
                        return Err(but);
                    }
                    if report {
                        objects.push(written(net, file, bytes.len()));
                    }
                    Ok(())
                }
                None if product.form == Form::Json => {
                    objects.push(String::from_utf8_lossy(&bytes).into_owned());
                    Ok(())
                }
                None => {
                    write(None, &bytes, &[])?;
                    // What was made stands where the refusal's line would.
                    but.map_or(Ok(()), |but| {
                        said(product.command, &but);
                        Err(Failure::No)
                    })
                }
            }
        };
        match done() {
            Ok(()) => {}
            Err(failure @ (Failure::Usage(_) | Failure::Gone)) => return Err(failure),
            Err(failure) if !many => return Err(failure),
            Err(failure) => {
                answer = Err(Failure::No);
                if json {
                    objects.extend(printed(&failure));
                    said(product.command, &failure);
                } else {
                    tell(product.command, false, &failure);
                }
            }
        }
    }
    if written_files < places.iter().flatten().count() && many {
        let all = places.len();
        let command = product.command;
        say(&format!(
            "calzundi {command}: {written_files} of {all} files written"
        ));
    }
    if !objects.is_empty() {
        let text = if many {
            several(&objects)
        } else {
            objects.concat()
        };
        write(None, text.as_bytes(), &[])?;
    }
    answer
}

/// Endings of names that say what a file is. Nets and trees are called anything else: one that is there is known by what is in it.
const ENDINGS: [&str; 16] = [
    "svg", "html", "gds", "def", "json", "png", "pdf", "jpg", "jpeg", "gif", "webp", "bmp", "tif",
    "tiff", "ps", "eps",
];

/// What is made has one form whatever it is called, so it had better not be called otherwise.
pub fn named_right(file: &Path, made: &str) -> Result<(), Failure> {
    let ending = file.extension().unwrap_or_default();
    let ending = ending.to_string_lossy().to_lowercase();
    if ending == made || !ENDINGS.contains(&ending.as_str()) {
        return Ok(());
    }
    let wrong = match (made, ending.as_str()) {
        ("html", "svg") => "a page is HTML: name it .html, or leave --html out".to_string(),
        ("html", _) => "a page is HTML: name it .html".into(),
        ("svg", "html") => "a picture is SVG: name it .svg, or take --html".into(),
        ("svg", _) => {
            "a picture is SVG: name it .svg, and let another program turn it into that".into()
        }
        ("gds", _) => "a layout is GDSII: name it .gds, or take --def".into(),
        ("def", _) => "a layout is DEF: name it .def, or take --gds".into(),
        ("net", _) => "a net file is no text: name it .net".into(),
        ("json", _) => "what is written is JSON: name it .json".into(),
        _ => format!("what is written is text: name it .{made}"),
    };
    let file = file.as_os_str().to_os_string();
    Err(Failure::Usage(format!("{}: {wrong}", name(Some(&file)))))
}

/// The object that says what was written.
fn written(net: &OsString, file: &Path, bytes: usize) -> String {
    let file = file.as_os_str().to_os_string();
    let more = vec![
        ("written", quoted(name(Some(&file)).as_given())),
        ("bytes", bytes.to_string()),
    ];
    object(&[about("net", &name(Some(net))), more].concat())
}

/// Writes a file. One that is read stays, and so does any other net, unless that is what it would become or `--force` is given.
pub fn put(words: &Words, file: &Path, bytes: &[u8]) -> Result<(), Failure> {
    let inputs: Vec<Option<&OsString>> = words.inputs().map(Some).collect();
    keep(file, &inputs)?;
    let word = file.as_os_str().to_os_string();
    let kept = |why: &str| {
        let said = format!("{why}; --force writes over it");
        Err(Failure::wrong(name(Some(&word)), said))
    };
    let before = if words.has(FORCE.name) {
        Ok(None)
    } else {
        there(file)
    };
    match before {
        Err(error) => kept(&format!(
            "it is there and cannot be read, so it may be a net ({error})"
        )),
        Ok(Some(before)) if before.len() as u64 <= MOST_BYTES && before == bytes => Ok(()),
        Ok(Some(before)) if is_net(&before) => kept("it is a net"),
        Ok(_) => write(Some(&word), bytes, &inputs),
    }
}

/// Where what is made of each net goes; none is standard output.
fn places(words: &Words, product: &Product) -> Result<Vec<Option<PathBuf>>, Failure> {
    let nets = &words.files;
    let output = words.file(OUTPUT.name).filter(|word| *word != "-");
    match output {
        None if nets.len() > 1 && product.form == Form::File => {
            let second = name(nets.get(1));
            Err(Failure::Usage(format!(
                "'{second}' is taken for a net; what is made goes to -o FILE, of many nets to -o FOLDER/"
            )))
        }
        None => Ok(nets.iter().map(|_| None).collect()),
        Some(folder) if is_folder(folder) => in_folder(nets, Path::new(folder), product.ending),
        Some(_) if nets.len() > 1 => {
            let many = "many nets go to a folder: -o FOLDER/";
            Err(Failure::Usage(many.into()))
        }
        Some(file) => Ok(vec![Some(PathBuf::from(file))]),
    }
}

/// Whether a name is that of a folder: it ends with a slash, or is one.
fn is_folder(word: &OsStr) -> bool {
    word.as_bytes().ends_with(b"/") || Path::new(word).is_dir()
}

/// A file in a folder for each net, by the net's own name. The folder is made where there is none.
fn in_folder(
    nets: &[OsString],
    folder: &Path,
    ending: &str,
) -> Result<Vec<Option<PathBuf>>, Failure> {
    let mut files: Vec<Option<PathBuf>> = Vec::new();
    for (at, net) in nets.iter().enumerate() {
        let stem = if net == "-" {
            Some(OsStr::new("standard-input"))
        } else {
            Path::new(net).file_stem()
        };
        let mut file = stem.unwrap_or_default().to_os_string();
        file.push(format!(".{ending}"));
        let file = Some(folder.join(file));
        if let Some(first) = files.iter().position(|one| *one == file) {
            let (one, other) = (name(nets.get(first)), name(nets.get(at)));
            let both = format!("{one} and {other} would be one file in the folder");
            return Err(Failure::Usage(both));
        }
        files.push(file);
    }
    fs::create_dir_all(folder)
        .map_err(|error| Failure::wrong(name(Some(&folder.as_os_str().into())), error))?;
    Ok(files)
}
