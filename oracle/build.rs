//! Assembles the published validator: copies its files to the build folder with the patches below
//! and writes the list of modules that `src/lib.rs` includes. No published code is kept here.

use std::path::{Path, PathBuf};
use std::{env, fs, process};

/// The published modules that `validate` needs, below `crates/usfm3/src`.
const FILES: [&str; 8] = [
    "cst.rs",
    "diagnostic.rs",
    "marker.rs",
    "span.rs",
    "tape.rs",
    "validate.rs",
    "serialize/render.rs",
    "serialize/vref.rs",
];

/// A change of one file: `old` must occur exactly `times` times.
struct Patch {
    file: &'static str,
    old: &'static str,
    new: &'static str,
    times: usize,
}

/// Makes a private item that begins a line visible in the crate.
macro_rules! visible {
    ($file:literal, $item:literal) => {
        Patch {
            file: $file,
            old: concat!("\n", $item),
            new: concat!("\npub(crate) ", $item),
            times: 1,
        }
    };
}

/// Visibility and the path of a stub; nothing here changes what the code computes.
const PATCHES: &[Patch] = &[
    visible!("marker.rs", "fn strip_level_suffix("),
    visible!("validate.rs", "fn is_attached("),
    visible!("validate.rs", "struct NumberLabel<'a> {"),
    visible!("validate.rs", "fn number_label<'a>("),
    visible!("validate.rs", "fn check_number_form("),
    visible!("validate.rs", "fn book_code<'a>("),
    visible!("validate.rs", "fn figure_is_empty("),
    visible!("validate.rs", "fn blank_line_has_inline_content("),
    visible!("validate.rs", "fn word_marker_is_empty("),
    visible!("validate.rs", "fn validate_table_row("),
    visible!("validate.rs", "fn table_cell_columns("),
    visible!("validate.rs", "fn validate_attributes("),
    visible!("validate.rs", "fn milestone_base("),
    visible!("validate.rs", "fn is_front_matter_code("),
    visible!("validate.rs", "fn is_note_only_marker("),
    visible!("validate.rs", "struct VersePart {"),
    visible!("validate.rs", "fn parse_verse_part("),
    visible!("validate.rs", "fn parse_verse_range_end("),
    visible!("validate.rs", "fn is_valid_verse_sequence("),
    Patch {
        file: "validate.rs",
        old: "    label: &'a str,\n",
        new: "    pub(crate) label: &'a str,\n",
        times: 1,
    },
    Patch {
        file: "validate.rs",
        old: "    glued: bool,\n",
        new: "    pub(crate) glued: bool,\n",
        times: 1,
    },
    Patch {
        file: "validate.rs",
        old: "    num: u32,\n    suffix: Option<char>,\n",
        new: "    pub(crate) num: u32,\n    pub(crate) suffix: Option<char>,\n",
        times: 1,
    },
    Patch {
        file: "validate.rs",
        old: "    fn next_expected(self)",
        new: "    pub(crate) fn next_expected(self)",
        times: 1,
    },
    Patch {
        file: "cst.rs",
        old: "    idx: u32,\n}",
        new: "    pub(crate) idx: u32,\n}",
        times: 1,
    },
    Patch {
        file: "span.rs",
        old: " memchr::",
        new: " crate::stubs::memchr::",
        times: 2,
    },
];

/// Ends the build with one line that says why.
fn fail(why: String) -> ! {
    println!("cargo::error={why}");
    process::exit(1);
}

/// The folder `crates/usfm3/src` of the published source.
fn published_folder() -> PathBuf {
    println!("cargo::rerun-if-env-changed=USFM3_SRC");
    let root = env::var("USFM3_SRC").unwrap_or_else(|_| "../../shared/docs/src".to_string());
    let folder = Path::new(&root).join("crates/usfm3/src");
    if !folder.join("validate.rs").is_file() {
        fail(format!(
            "the published source isn't at {root}: set USFM3_SRC to the folder that holds crates/usfm3/src"
        ));
    }
    folder
}

fn read(path: &Path) -> String {
    println!("cargo::rerun-if-changed={}", path.display());
    fs::read_to_string(path)
        .unwrap_or_else(|error| fail(format!("can't read {}: {error}", path.display())))
}

fn write(path: &Path, text: &str) {
    fs::write(path, text)
        .unwrap_or_else(|error| fail(format!("can't write {}: {error}", path.display())));
}

fn patched(file: &str, text: String) -> String {
    let mut text = text;
    for patch in PATCHES.iter().filter(|patch| patch.file == file) {
        let found = text.matches(patch.old).count();
        if found != patch.times {
            fail(format!(
                "patch of {file}: {:?} occurs {found} times instead of {}",
                patch.old, patch.times
            ));
        }
        text = text.replace(patch.old, patch.new);
    }
    text
}

/// One module of the list. Paths are absolute because the list is included from another folder.
fn declaration(out: &Path, file: &str) -> String {
    let name = Path::new(file).file_stem().unwrap().to_str().unwrap();
    let path = out.join(file);
    format!("#[path = {path:?}]\n#[allow(dead_code)]\npub mod {name};\n")
}

fn module_list(out: &Path) -> String {
    let (inner, outer): (Vec<&str>, Vec<&str>) = FILES
        .iter()
        .partition(|file| file.starts_with("serialize/"));
    let mut text = String::new();
    for file in outer {
        text.push_str(&declaration(out, file));
    }
    text.push_str("pub mod serialize {\n");
    for file in inner {
        text.push_str(&declaration(out, file));
    }
    text.push_str("pub(crate) use render::{alt_pub_kind, attached_numbers};\n}\n");
    text
}

/// Where `bin/build` puts single functions of the library; the binding links the rest.
fn link_library() {
    let file = "../target/staticlib/liboracle_exports.a";
    let found = fs::canonicalize(file)
        .unwrap_or_else(|_| fail("run `bin/build oracle_exports` first".to_string()));
    println!("cargo::rerun-if-changed={file}");
    let folder = found.parent().expect("a file stands in a folder");
    println!("cargo::rustc-link-search=native={}", folder.display());
}

fn main() {
    println!("cargo::rerun-if-changed=build.rs");
    if env::var_os("CARGO_FEATURE_LIBRARY").is_some() {
        link_library();
    }
    let out = PathBuf::from(env::var("OUT_DIR").expect("cargo sets OUT_DIR"));
    let folder = published_folder();
    let _ = fs::create_dir_all(out.join("serialize"));
    for file in FILES {
        write(&out.join(file), &patched(file, read(&folder.join(file))));
    }
    let lent = read(Path::new("assembly/marker_tables.rs"));
    write(&out.join("marker_tables.rs"), &lent);
    write(&out.join("published.rs"), &module_list(&out));
}
