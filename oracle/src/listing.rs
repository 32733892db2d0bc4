//! The listing of document 01, with the column of document 02's K3, plainly: from the owed findings and the refusals; and what
//! other programs share with it.

use std::fmt::Write;

use crate::coverage::code_name;
use crate::document::Document;
use crate::published::Found;
use crate::refusals::refusal;
use crate::unreadable::owed_findings;

pub const LARGEST_FILE: usize = 65_536;
const MOST_FINDINGS: usize = 1_024;
const LONGEST_MESSAGE: usize = 65_536;

const SEVERITIES: [&str; 3] = ["error", "warning", "info"];

/// Line and column of a place, both from 1.
pub fn place(source: &str, at: usize) -> (usize, usize) {
    // "a line ends after byte 10"
    let ends = source[..at].match_indices('\n').map(|(end, _)| end + 1);
    let starts: Vec<usize> = [0].into_iter().chain(ends).collect();
    let (line, start) = (starts.len(), starts[starts.len() - 1]);

    // "one plus the number of code points that begin at or after the line's start and before the finding's"
    let begins = source.char_indices().map(|(begin, _)| begin);
    let column = 1 + begins.filter(|begin| (start..at).contains(begin)).count();

    (line, column)
}

fn finding(out: &mut String, source: &str, found: &Found) {
    let (line, column) = place(source, found.start as usize);
    let shown = found.message.len() <= LONGEST_MESSAGE;
    let message = if shown { found.message.as_str() } else { "" };
    let severity = SEVERITIES[found.severity as usize];
    let code = code_name(found.code);
    write!(
        out,
        "severity={severity}\ncode={code}\nline={line}\ncolumn={column}\nmessage={message}\n"
    )
    .expect("a string takes all");
}

pub fn of_severity(list: &[Found], severity: u32) -> usize {
    list.iter().filter(|f| f.severity == severity).count()
}

pub fn refused_lines(number: u64, place: u64) -> String {
    format!("verdict=refused\nrefusal={number}\nplace={place}\n")
}

/// What a program prints for these three files; of a checked document it prints these lines of its findings.
pub fn printed(document: &Document, lines: impl FnOnce(&[Found]) -> String) -> String {
    let files = [&document.table, &document.source, &document.tape];
    if files.iter().any(|file| file.len() > LARGEST_FILE) {
        return "verdict=toolarge\n".to_string();
    }
    if let Some((number, place)) = refusal(document, usize::MAX, usize::MAX) {
        return refused_lines(number.into(), place);
    }
    lines(&owed_findings(document))
}

fn checked_lines(source: &[u8], list: &[Found]) -> String {
    let source = str::from_utf8(source).expect("an accepted source is UTF-8");
    let mut out = format!(
        "verdict=checked\nerrors={}\nwarnings={}\ninfos={}\nfindings={}\n",
        of_severity(list, 0),
        of_severity(list, 1),
        of_severity(list, 2),
        list.len()
    );
    for found in list.iter().take(MOST_FINDINGS) {
        finding(&mut out, source, found);
    }
    out
}

/// What check-exercise prints for these three files.
pub fn listing(document: &Document) -> String {
    printed(document, |list| checked_lines(&document.source, list))
}

#[cfg(test)]
mod tests;
