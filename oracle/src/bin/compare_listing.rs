//! Compares what check-exercise, mark-exercise and read-exercise print with the plain listing, the plain mark and the plain reader,
//! on generated documents, on generated texts with their own tapes, on the largest text and on a document with a million errors.
//! Exit status 1 at the first difference.

use std::path::Path;
use std::process::{Command, ExitCode};
use std::{env, fs};

use oracle::arguments::numbers;
use oracle::document::{Document, table_text};
use oracle::drafts::{Draft, draft};
use oracle::examples::million_errors;
use oracle::generate::partly_framed;
use oracle::listing::{LARGEST_FILE, listing};
use oracle::marks;
use oracle::published::{Validated, overflow_is_noticed, try_validate};
use oracle::reading;
use oracle::refusals::refusal;
use oracle::samples::entry;

const PROGRAMS: &str = concat!(env!("CARGO_MANIFEST_DIR"), "/../target/bin");

/// The programs, each with what it prints for a document.
const COMPARED: [(&str, Printed); 3] = [
    ("check_exercise", |document| listing(document).into_bytes()),
    ("mark_exercise", |document| {
        marks::lines(document).into_bytes()
    }),
    ("read_exercise", |document| {
        reading::printed(&document.table, &document.source)
    }),
];

type Printed = fn(&Document) -> Vec<u8>;

fn write_files(folder: &Path, document: &Document) -> Result<(), String> {
    let files = [
        ("table.txt", &document.table),
        ("source.usfm", &document.source),
        ("nodes.bin", &document.tape),
    ];
    for (name, bytes) in files {
        fs::write(folder.join(name), bytes).map_err(|error| error.to_string())?;
    }
    Ok(())
}

/// What a program prints in a folder.
fn printed(folder: &Path, program: &str) -> Result<Vec<u8>, String> {
    let mut program = Command::new(Path::new(PROGRAMS).join(program));
    let output = program.current_dir(folder).output();
    Ok(output.map_err(|error| error.to_string())?.stdout)
}

/// The bytes that all programs print for a document.
fn compare(folder: &Path, document: &Document) -> Result<usize, String> {
    write_files(folder, document)?;
    let mut count = 0;
    for (program, owed) in COMPARED {
        let expected = owed(document);
        if printed(folder, program)? != expected {
            return Err(format!("{program} prints otherwise: {}", document.to_hex()));
        }
        count += expected.len();
    }
    Ok(count)
}

/// A text with its own tape, or with none where it is turned back.
fn own_text(Draft { table, text }: Draft) -> Document {
    let nodes = reading::read(&table, &text, usize::MAX);
    let mut document = Document {
        table,
        source: text,
        tape: Vec::new(),
    };
    if let Ok(nodes) = nodes {
        document.set_nodes(&nodes);
    }
    document
}

/// A text of the most bytes with a node for each and one more, as many as the program's list holds: so it never prints number 18.
fn most_nodes() -> Document {
    own_text(Draft {
        table: table_text(&[entry("p", 3, 2)]),
        text: b"\\p".repeat(LARGEST_FILE / 2),
    })
}

/// Whether a sum of the published code leaves 32 bits.
fn is_past_32_bits(document: &Document) -> Result<bool, String> {
    if refusal(document, usize::MAX, usize::MAX).is_some() {
        return Ok(false);
    }
    Ok(try_validate(document)? == Validated::Overflowed)
}

fn run() -> Result<(), String> {
    if !overflow_is_noticed() {
        return Err("build with --profile compare: overflow must be noticed".to_string());
    }
    let (mut documents, mut seed) = (1_000, 1);
    numbers(&mut [("--documents", &mut documents), ("--seed", &mut seed)])?;
    let folder = env::temp_dir().join(format!("compare_listing_{}", std::process::id()));
    fs::create_dir_all(&folder).map_err(|error| error.to_string())?;
    let (mut bytes, mut compared) = (0, 0u64);
    for document in [million_errors("\\v 1 "), most_nodes()] {
        bytes += compare(&folder, &document)?;
        compared += 1;
    }
    for seed in seed..seed + documents {
        for document in [partly_framed(seed), own_text(draft(seed))] {
            if is_past_32_bits(&document)? {
                continue;
            }
            let printed = compare(&folder, &document);
            bytes += printed.map_err(|why| format!("seed {seed}: {why}"))?;
            compared += 1;
        }
    }
    println!("no difference: {compared} listings, marks and tapes, {bytes} bytes");
    fs::remove_dir_all(&folder).map_err(|error| error.to_string())
}

fn main() -> ExitCode {
    match run() {
        Ok(()) => ExitCode::SUCCESS,
        Err(why) => {
            println!("{why}");
            ExitCode::FAILURE
        }
    }
}
