//! Files and the standard streams: input is bounded and never overwritten, output is whole or not there.

use std::collections::hash_map::RandomState;
use std::ffi::{OsStr, OsString};
use std::fs::{self, File, Metadata, OpenOptions};
use std::hash::{BuildHasher, Hasher};
use std::io::{self, ErrorKind, Read, Write};
use std::os::fd::{AsFd, BorrowedFd, RawFd};
use std::os::raw::c_int;
use std::os::unix::fs::MetadataExt;
use std::path::{Path, PathBuf};
use std::sync::atomic::{AtomicBool, Ordering};

use crate::formats::layout;
use crate::line::plain;
use crate::name::Name;
use crate::program::Failure;

/// No input of this program is longer than this: the longest net takes a hundredth of it.
pub const MOST_BYTES: u64 = 1 << 20;

/// Whether standard input and output were closed when the program started. Before `main` Rust opens closed ones as /dev/null, and then what
/// is written there is lost without a word; so they are looked at before that.
static CLOSED: [AtomicBool; 2] = [AtomicBool::new(false), AtomicBool::new(false)];

extern "C" {
    fn fcntl(fd: c_int, command: c_int, ...) -> c_int;
}

extern "C" fn look_at_streams() {
    const F_GETFD: c_int = 1;
    for (fd, closed) in CLOSED.iter().enumerate() {
        // SAFETY: asks for the flags of a descriptor; one that is closed gives -1.
        let flags = unsafe { fcntl(fd as c_int, F_GETFD) };
        closed.store(flags == -1, Ordering::Relaxed);
    }
}

#[used]
#[link_section = ".init_array"]
static AT_START: extern "C" fn() = look_at_streams;

fn closed(fd: usize) -> io::Result<()> {
    if CLOSED[fd].load(Ordering::Relaxed) {
        return Err(io::Error::other("it is closed"));
    }
    Ok(())
}

/// Says a line on standard error. Where even that cannot be written there is nobody left to tell.
pub fn say(line: &str) {
    let _ = writeln!(io::stderr().lock(), "{line}");
}

/// A file to read or write; none, and `-`, is standard input or output.
fn path(word: Option<&OsString>) -> Option<&Path> {
    word.filter(|word| word.as_os_str() != OsStr::new("-"))
        .map(Path::new)
}

/// How what is read is named in what is said of it.
pub fn name(word: Option<&OsString>) -> Name {
    path(word).map_or("standard input".into(), |path| {
        Name::from(path.to_string_lossy().into_owned())
    })
}

/// The bytes of a net or of a price list.
pub fn read(word: Option<&OsString>) -> Result<Vec<u8>, Failure> {
    read_most(word, MOST_BYTES)
}

/// The bytes of a file or of standard input, at most so many.
pub fn read_most(word: Option<&OsString>, most: u64) -> Result<Vec<u8>, Failure> {
    let mut bytes = Vec::new();
    let done = match path(word) {
        None => closed(0).and_then(|()| io::stdin().lock().take(most + 1).read_to_end(&mut bytes)),
        Some(path) => {
            File::open(path).and_then(|opened| opened.take(most + 1).read_to_end(&mut bytes))
        }
    };
    match done {
        Err(error) => Err(Failure::wrong(name(word), error)),
        Ok(_) if bytes.len() as u64 > most => {
            let import = match layout(&bytes) {
                Some(kind) if most == MOST_BYTES => {
                    format!("it is {kind}, which `calzundi import` reads; ")
                }
                _ => String::new(),
            };
            let long = format!("{import}it is longer than {most} bytes, the most that is read");
            Err(Failure::wrong(name(word), long))
        }
        Ok(_) => Ok(bytes),
    }
}

/// Writes all bytes to a file or to standard output. The inputs are what was read: none of them is written over.
pub fn write(
    word: Option<&OsString>,
    bytes: &[u8],
    inputs: &[Option<&OsString>],
) -> Result<(), Failure> {
    let Some(path) = path(word) else {
        return print(bytes).map_err(|error| match error.kind() {
            ErrorKind::BrokenPipe => Failure::Gone,
            _ => Failure::wrong("standard output", error),
        });
    };
    keep(path, inputs)?;
    put(path, bytes).map_err(|error| Failure::wrong(name(word), error))
}

/// Writes to standard output.
fn print(bytes: &[u8]) -> io::Result<()> {
    closed(1)?;
    let mut out = io::stdout().lock();
    out.write_all(bytes)?;
    out.flush()
}

/// No input is written over, by whichever name.
pub fn keep(path: &Path, inputs: &[Option<&OsString>]) -> Result<(), Failure> {
    match inputs.iter().find(|input| is_same(**input, path)) {
        Some(input) => {
            let said = format!("{} is read; it is not written over", name(*input));
            Err(Failure::Usage(said))
        }
        None => Ok(()),
    }
}

/// Whether an input is the file at a path, by whichever name.
fn is_same(input: Option<&OsString>, at: &Path) -> bool {
    let read = match path(input) {
        Some(path) => fs::metadata(path),
        None => {
            let stdin = io::stdin().as_fd().try_clone_to_owned();
            stdin.and_then(|fd| File::from(fd).metadata())
        }
    };
    let key = |data: Metadata| (data.is_file(), data.dev(), data.ino());
    match (read.map(key), fs::metadata(at).map(key)) {
        (Ok(read), Ok(written)) => read.0 && read == written,
        _ => false,
    }
}

/// The bytes of a plain file that is there, of a longer one as many as an input has at the most and one more. Whatever else is at a path
/// has nothing to lose, or is not written over.
pub fn there(path: &Path) -> io::Result<Option<Vec<u8>>> {
    let is_stream = end_of_links(path).is_ok_and(|end| is_descriptor(&end));
    if is_stream || !fs::metadata(path).is_ok_and(|data| data.is_file()) {
        return Ok(None);
    }
    let mut bytes = Vec::new();
    let opened = File::open(path)?;
    opened.take(MOST_BYTES + 1).read_to_end(&mut bytes)?;
    Ok(Some(bytes))
}

/// A file is written beside its place and then put there at once, so that it is whole, or as it was. What is no plain file, such as a
/// device or a pipe, is written to as it is, and so is what stands behind a descriptor.
fn put(path: &Path, bytes: &[u8]) -> io::Result<()> {
    let path = &end_of_links(path)?;
    if is_descriptor(path) {
        return to_descriptor(path, bytes);
    }
    let before = match fs::metadata(path) {
        Ok(data) if !data.is_file() => {
            let mut opened = OpenOptions::new().write(true).open(path)?;
            return opened.write_all(bytes);
        }
        Ok(data) => Some(data),
        Err(error) if error.kind() == ErrorKind::NotFound => None,
        Err(error) => return Err(error),
    };
    if let Some(data) = &before {
        ask_to_write(path, data)?;
    }
    let done = beside(path).and_then(|(new, file)| {
        let done = fill(file, bytes, before.as_ref()).and_then(|()| fs::rename(&new, path));
        done.inspect_err(|_| {
            let _ = fs::remove_file(&new);
        })
    });
    match done {
        Err(error) if error.kind() == ErrorKind::PermissionDenied && before.is_some() => {
            in_place(path, bytes)
        }
        done => done,
    }
}

/// Whether a path names a descriptor, such as /dev/stdout does by its link: it lies in /proc/PROCESS/fd.
fn is_descriptor(path: &Path) -> bool {
    folder_of(path).is_ok_and(|folder| folder.starts_with("/proc") && folder.ends_with("fd"))
}

fn folder_of(path: &Path) -> io::Result<PathBuf> {
    let folder = path.parent().unwrap_or(Path::new("/"));
    fs::canonicalize(if folder == Path::new("") {
        Path::new(".")
    } else {
        folder
    })
}

/// Writes on where a descriptor stands; where it is another process' own, at the end of what is there.
fn to_descriptor(path: &Path, bytes: &[u8]) -> io::Result<()> {
    let is_own = folder_of(path)? == fs::canonicalize("/proc/self/fd")?;
    let number = path.file_name().and_then(OsStr::to_str);
    match number.and_then(|number| number.parse::<RawFd>().ok()) {
        Some(1) if is_own => print(bytes),
        Some(number) if is_own && number >= 0 => {
            fs::symlink_metadata(path)?;
            // SAFETY: it is open, as was just seen, and nobody here closes a descriptor that is not his own.
            let given = unsafe { BorrowedFd::borrow_raw(number) };
            File::from(given.try_clone_to_owned()?).write_all(bytes)
        }
        _ => OpenOptions::new().append(true).open(path)?.write_all(bytes),
    }
}

/// The file that a path means, through links, also where it is not there yet. Of a descriptor it is its name.
fn end_of_links(path: &Path) -> io::Result<PathBuf> {
    let mut path = path.to_path_buf();
    for _ in 0..MOST_LINKS {
        let target = match fs::read_link(&path) {
            Ok(target) if !is_descriptor(&path) => target,
            _ => return Ok(path),
        };
        // A target that is no whole path begins in the link's folder.
        path = path.parent().unwrap_or(Path::new("")).join(target);
    }
    Err(io::Error::other("too many links lead on from it"))
}

/// So many links are followed, as the system does.
const MOST_LINKS: usize = 40;

/// A file that nobody may write stays as it is, whoever asks; so does one that we may not write.
fn ask_to_write(path: &Path, data: &Metadata) -> io::Result<()> {
    if data.permissions().readonly() {
        let wrong = "it is write-protected, and is left as it is";
        return Err(io::Error::other(wrong));
    }
    OpenOptions::new().write(true).open(path).map(drop)
}

/// Where nothing new can stand beside a file, it is written as it stands.
fn in_place(path: &Path, bytes: &[u8]) -> io::Result<()> {
    let mut file = OpenOptions::new().write(true).open(path)?;
    file.write_all(bytes)?;
    file.set_len(bytes.len() as u64)?;
    file.sync_all()?;
    say(&format!(
        "calzundi: {}: its folder cannot be written to, so it was written in place, which is not atomic",
        plain(&path.to_string_lossy())
    ));
    Ok(())
}

/// A new file in the same folder, with its name, which is short whatever the file's own. It is a random one: a process' number is not
/// enough, since programs in containers that share a folder may have the same.
fn beside(path: &Path) -> io::Result<(PathBuf, File)> {
    if path.file_name().is_none() {
        return Err(io::Error::new(ErrorKind::InvalidInput, "it names no file"));
    }
    fresh(|random| path.with_file_name(format!(".calzundi-{random}.new")))
}

/// A new file whose name has a random word in it: none that was there before.
fn fresh(named: impl Fn(&str) -> PathBuf) -> io::Result<(PathBuf, File)> {
    for _ in 0..MOST_NAMES {
        let random = RandomState::new().build_hasher().finish();
        let new = named(&format!("{random:016x}"));
        match OpenOptions::new().write(true).create_new(true).open(&new) {
            Err(error) if error.kind() == ErrorKind::AlreadyExists => {}
            opened => return opened.map(|file| (new, file)),
        }
    }
    Err(io::Error::other("no new name is free in its folder"))
}

/// Writes bytes to a new file, `STEM-RANDOM.ENDING`, in the first of some folders that takes it; where it is. No file is written over.
pub fn write_new(
    folders: &[PathBuf],
    stem: &str,
    ending: &str,
    bytes: &[u8],
) -> io::Result<PathBuf> {
    let mut wrong = io::Error::other("there is no folder for it");
    for folder in folders {
        let made = fresh(|random| folder.join(format!("{stem}-{random}.{ending}")));
        let made = made.and_then(|(new, file)| match fill(file, bytes, None) {
            Ok(()) => Ok(new),
            Err(error) => {
                let _ = fs::remove_file(&new);
                Err(error)
            }
        });
        match made {
            Ok(new) => return Ok(new),
            Err(error) => wrong = error,
        }
    }
    Err(wrong)
}

/// So many names are tried.
const MOST_NAMES: usize = 16;

fn fill(mut file: File, bytes: &[u8], before: Option<&Metadata>) -> io::Result<()> {
    if let Some(data) = before {
        file.set_permissions(data.permissions())?;
    }
    file.write_all(bytes)?;
    file.sync_all()
}
