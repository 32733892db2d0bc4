//! Writes the folders of examples for check-exercise, mark-exercise and read-exercise, each with
//! what they print; with --check it makes them anew and compares.

use std::fs;
use std::path::{Path, PathBuf};
use std::process::ExitCode;

use oracle::examples::examples;
use oracle::listing::listing;
use oracle::marks;
use oracle::reading;

const FOLDER: &str = concat!(env!("CARGO_MANIFEST_DIR"), "/../examples");

/// The files of a folder; an empty one isn't written, since a file that can't be read counts as
/// empty.
fn files() -> Vec<(PathBuf, Vec<u8>)> {
    let mut list = Vec::new();
    for (name, document) in examples() {
        let folder = Path::new(FOLDER).join(name);
        let expected = listing(&document).into_bytes();
        let expected_mark = marks::lines(&document).into_bytes();
        let expected_read = reading::printed(&document.table, &document.source);
        list.extend([
            (folder.join("table.txt"), document.table),
            (folder.join("source.usfm"), document.source),
            (folder.join("nodes.bin"), document.tape),
            (folder.join("expected"), expected),
            (folder.join("expected-mark"), expected_mark),
            (folder.join("expected-read"), expected_read),
        ]);
    }
    list.retain(|(_, bytes)| !bytes.is_empty());
    list
}

fn run() -> Result<(), String> {
    let with_path = |path: &Path, error: std::io::Error| format!("{}: {error}", path.display());
    let check = match std::env::args().nth(1).as_deref() {
        None => false,
        Some("--check") => true,
        Some(_) => return Err("usage: record_examples [--check]".to_string()),
    };
    for (path, bytes) in files() {
        if check {
            let kept = fs::read(&path).map_err(|error| with_path(&path, error))?;
            if kept != bytes {
                return Err(format!("{} differs from what is made now", path.display()));
            }
        } else {
            let folder = path.parent().expect("a file stands in a folder");
            fs::create_dir_all(folder).map_err(|error| with_path(&path, error))?;
            fs::write(&path, bytes).map_err(|error| with_path(&path, error))?;
        }
    }
    Ok(())
}

fn main() -> ExitCode {
    match run() {
        Ok(()) => ExitCode::SUCCESS,
        Err(why) => {
            eprintln!("{why}");
            ExitCode::FAILURE
        }
    }
}
