//! Prints what is wrong in some texts, which no parser has read, under the marker table of a file.
//!
//!     cargo run --example check_text -- ../../tables/usfm-3.1.txt ../../examples/own-text/source.usfm

use std::path::Path;
use std::process::ExitCode;
use std::{env, fs, io};

use harkoxin::{Checker, Refusal, Report, Table};

fn print_report(name: &Path, report: &Report) {
    let (errors, warnings, infos) = (report.errors(), report.warnings(), report.infos());
    let mark = match report.mark() {
        Ok(mark) => format!("mark {mark}"),
        Err(Refusal { number, .. }) => format!("no mark by number {number}"),
    };
    println!(
        "{}: errors {errors}, warnings {warnings}, infos {infos}, verses {}, {mark}",
        name.display(),
        report.verses()
    );
    for finding in report {
        println!("{finding}");
    }
}

fn print_text(checker: &mut Checker, table: &Table<'_>, path: &Path) -> io::Result<()> {
    let text = fs::read(path)?;
    match checker.check_text_bytes(table, &text) {
        Ok(report) => print_report(path, &report),
        Err(Refusal { number, place }) => {
            let name = path.display();
            println!("{name}: refused by number {number}, place {place}");
        }
    }
    Ok(())
}

fn print_all(mut paths: impl Iterator<Item = std::ffi::OsString>) -> Result<(), String> {
    let cant_read = |path: &Path| {
        let name = path.display().to_string();
        move |error| format!("can't read {name}: {error}")
    };
    let table = paths.next().ok_or("usage: check_text TABLE FILE...")?;
    let table = Path::new(&table);
    let table = fs::read(table).map_err(cant_read(table))?;
    let mut checker = Checker::new();
    for path in paths {
        let path = Path::new(&path);
        print_text(&mut checker, &Table::new(&table), path).map_err(cant_read(path))?;
    }
    Ok(())
}

fn main() -> ExitCode {
    match print_all(env::args_os().skip(1)) {
        Ok(()) => ExitCode::SUCCESS,
        Err(why) => {
            eprintln!("{why}");
            ExitCode::FAILURE
        }
    }
}
