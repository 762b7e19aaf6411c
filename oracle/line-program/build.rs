//! Takes the Rust from where it lies, holds it to the recorded checksums and hands it to the
//! compiler byte for byte. None of it is kept in this repository.

#[path = "build/sha256.rs"]
mod sha256;

use std::env;
use std::fs;
use std::path::Path;
use std::path::PathBuf;

/// An entry of the file `checksums`.
struct Source<'a> {
    checksum: &'a str,
    path: &'a str,
}

fn main() {
    println!("cargo::rerun-if-env-changed=PUMPKIN_SRC");
    println!("cargo::rerun-if-env-changed=ORACLE_WRONG_COPY");
    let package =
        PathBuf::from(env::var_os("CARGO_MANIFEST_DIR").expect("cargo names the package"));
    if let Err(message) = take_all(&package) {
        println!("cargo::error={message}");
    }
}

fn take_all(package: &Path) -> Result<(), String> {
    let folder = source_folder(package)?;
    let output = PathBuf::from(env::var_os("OUT_DIR").expect("cargo names the output folder"));
    let wrong_copy = env::var("ORACLE_WRONG_COPY").is_ok_and(|value| value == "1");
    if wrong_copy {
        println!("cargo::rustc-env=ORACLE_IS_A_WRONG_COPY=1");
    }
    let checksums = package.join("../checksums");
    println!("cargo::rerun-if-changed={}", checksums.display());
    let list = read(&checksums)?;
    for source in list.lines().map(parse) {
        let source = source.ok_or("the file checksums is not a list of checksums and paths")?;
        let text = take(&folder, &source, wrong_copy)?;
        let name = Path::new(source.path)
            .file_name()
            .expect("the path names a file");
        fs::write(output.join(name), text).map_err(|error| error.to_string())?;
    }
    Ok(())
}

fn source_folder(package: &Path) -> Result<PathBuf, String> {
    let named = env::var_os("PUMPKIN_SRC").map(PathBuf::from);
    let folder = named.unwrap_or_else(|| package.join("../../../shared/docs/src"));
    if folder.is_dir() {
        return Ok(folder);
    }
    Err(format!(
        "the Rust is not at hand: {} is not a folder; let PUMPKIN_SRC name a checkout of Pumpkin",
        folder.display()
    ))
}

fn parse(line: &str) -> Option<Source<'_>> {
    let (checksum, path) = line.split_once("  ")?;
    Some(Source { checksum, path })
}

fn take(folder: &Path, source: &Source<'_>, wrong_copy: bool) -> Result<String, String> {
    let path = find(folder, source.path)?;
    println!("cargo::rerun-if-changed={}", path.display());
    let text = without_tests(read(&path)?);
    if wrong_copy || sha256::hex(text.as_bytes()) == source.checksum {
        return Ok(text);
    }
    Err(format!(
        "{} is not the Rust that the oracle is made from: its checksum differs",
        path.display()
    ))
}

/// A file lies under its own path in a checkout, and under a flat name in a folder of copies.
fn find(folder: &Path, path: &str) -> Result<PathBuf, String> {
    let flat = format!("src--{}.txt", path.replace('/', "--"));
    [folder.join(path), folder.join(flat)]
        .into_iter()
        .find(|candidate| candidate.is_file())
        .ok_or_else(|| {
            format!(
                "the Rust is not at hand: {} has no {path}",
                folder.display()
            )
        })
}

/// The checksums are of the text before the tests, since the flat copies have no tests.
fn without_tests(text: String) -> String {
    match text.find("\n#[cfg(test)]\n") {
        Some(end) => text[..=end].to_owned(),
        None => text,
    }
}

fn read(path: &Path) -> Result<String, String> {
    fs::read_to_string(path).map_err(|error| format!("cannot read {}: {error}", path.display()))
}
