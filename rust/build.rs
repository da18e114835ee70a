//! Links the static library: CALZUNDI_LIBRARY names it; else it is the one of a package, ../lib/libcalzundi.a, or the one that
//! `tools/library` makes of the proved crates, ../target/staticlib/libexports.a. The version is the header's.

use std::path::{Path, PathBuf};

fn main() {
    let root = Path::new(env!("CARGO_MANIFEST_DIR")).join("..");
    let header = root.join("include/calzundi.h");
    println!("cargo:rerun-if-changed={}", header.display());
    println!("cargo:rustc-env=CALZUNDI_VERSION={}", version(&header));
    println!("cargo:rerun-if-env-changed=CALZUNDI_LIBRARY");
    let library = library(&root);
    println!("cargo:rerun-if-changed={}", library.display());
    if !library.exists() {
        println!(
            "cargo:warning=there is no {} yet: run `tools/library` first",
            library.display()
        );
    }
    if let Ok(bytes) = std::fs::read(&library) {
        if let Err(words) = meant(&bytes) {
            eprintln!("{}: {words}", library.display());
            std::process::exit(1);
        }
    }
    let name = library.file_stem().and_then(|stem| stem.to_str());
    let name = name
        .and_then(|stem| stem.strip_prefix("lib"))
        .expect("a library is called libNAME.a");
    let folder = library.parent().expect("a library is in a folder");
    println!("cargo:rustc-link-search=native={}", folder.display());
    println!("cargo:rustc-link-lib=static={name}");
}

fn library(root: &Path) -> PathBuf {
    let packaged = root.join("lib/libcalzundi.a");
    match std::env::var_os("CALZUNDI_LIBRARY") {
        Some(named) => named.into(),
        None if packaged.exists() => packaged,
        None => root.join("target/staticlib/libexports.a"),
    }
}

/// The one place where the version stands.
fn version(header: &Path) -> String {
    let text = std::fs::read_to_string(header).expect("include/calzundi.h stands beside the crate");
    text.lines()
        .find_map(|line| line.strip_prefix("#define CALZUNDI_VERSION "))
        .map(|quoted| quoted.trim_matches('"').to_string())
        .expect("the header names the version")
}

/// The crate takes a library whose lists mean what it hands over, which the library says by the name of a function.
const LISTS_SINCE: &str = "1_12";

/// What is wrong with a library's bytes, if anything. The names of an archive's functions stand in its index as they are.
fn meant(bytes: &[u8]) -> Result<(), String> {
    let prefix = b"calzundi_lists_since_";
    let at = bytes.windows(prefix.len()).position(|part| part == prefix);
    let said = at.map(|at| {
        let name = &bytes[at + prefix.len()..];
        let end = name
            .iter()
            .position(|&byte| !byte.is_ascii_digit() && byte != b'_');
        String::from_utf8_lossy(&name[..end.unwrap_or(name.len())]).into_owned()
    });
    let wanted = LISTS_SINCE.replace('_', ".");
    match said {
        Some(since) if since == LISTS_SINCE => Ok(()),
        Some(since) => Err(format!(
            "its lists mean what they do since version {}, and this crate hands over those since {wanted}",
            since.replace('_', ".")
        )),
        None => Err(format!(
            "it does not say what its lists mean, as libraries since 2.7 do; this crate hands over lists as since {wanted}"
        )),
    }
}
