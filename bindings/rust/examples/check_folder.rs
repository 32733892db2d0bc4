//! Prints what is wrong in the documents of some folders, each of which holds `table.txt`, `source.usfm` and `nodes.bin`.
//!
//!     cargo run --example check_folder -- ../../examples/listing ../../examples/each-code

use std::path::Path;
use std::process::ExitCode;
use std::{env, fs, io};

use harkoxin::{Checker, Refusal, Report, Table, Tape};

fn print_report(name: &Path, report: &Report) {
    let (errors, warnings, infos) = (report.errors(), report.warnings(), report.infos());
    let mark = match report.mark() {
        Ok(mark) => format!("mark {mark}"),
        Err(Refusal { number, .. }) => format!("no mark by number {number}"),
    };
    println!(
        "{}: errors {errors}, warnings {warnings}, infos {infos}, verses {}, {mark}",
        name.display(),
        report.verses()
    );
    for finding in report {
        println!("{finding}");
    }
}

fn print_folder(checker: &mut Checker, folder: &Path) -> io::Result<()> {
    let table = fs::read(folder.join("table.txt"))?;
    let source = fs::read(folder.join("source.usfm"))?;
    let tape = fs::read(folder.join("nodes.bin"))?;
    match checker.check_bytes(&Table::new(&table), &source, &Tape::from_bytes(&tape)) {
        Ok(report) => print_report(folder, &report),
        Err(Refusal { number, place }) => {
            let name = folder.display();
            println!("{name}: refused by number {number}, place {place}");
        }
    }
    Ok(())
}

fn main() -> ExitCode {
    let mut checker = Checker::new();
    for folder in env::args_os().skip(1) {
        let folder = Path::new(&folder);
        if let Err(error) = print_folder(&mut checker, folder) {
            eprintln!("can't read {}: {error}", folder.display());
            return ExitCode::FAILURE;
        }
    }
    ExitCode::SUCCESS
}
