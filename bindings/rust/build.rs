//! Links the static library that `bin/build harkoxin` writes.

use std::path::PathBuf;
use std::{env, process};

const ARCHIVE: &str = "libharkoxin.a";

/// Ends the build with one line that says why.
fn fail(why: &str) -> ! {
    println!("cargo::error={why}");
    process::exit(1);
}

/// The folder that holds the archive: the one that `HARKOXIN_LIB` names, or the repository's.
fn folder() -> PathBuf {
    println!("cargo::rerun-if-env-changed=HARKOXIN_LIB");
    let named = env::var_os("HARKOXIN_LIB").map(PathBuf::from);
    let folder = named.unwrap_or_else(|| PathBuf::from("../../target/staticlib"));
    // The linker runs in another folder than this program.
    match folder.canonicalize() {
        Ok(folder) if folder.join(ARCHIVE).is_file() => folder,
        _ => fail(&format!(
            "{ARCHIVE} isn't in {}: run `bin/build harkoxin`, or set HARKOXIN_LIB to its folder",
            folder.display()
        )),
    }
}

fn main() {
    println!("cargo::rerun-if-changed=build.rs");
    let folder = folder();
    println!("cargo::rerun-if-changed={}", folder.join(ARCHIVE).display());
    println!("cargo::rustc-link-search=native={}", folder.display());
    println!("cargo::rustc-link-lib=static=harkoxin");
}
