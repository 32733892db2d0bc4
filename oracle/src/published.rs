//! The published `validate` on an accepted document.

use std::any::Any;
use std::cell::Cell;
use std::panic::{self, AssertUnwindSafe};
use std::sync::Once;

use crate::cst::Cursor;
use crate::diagnostic::{Diagnostic, Severity};
use crate::document::{Document, Entry, Node, entries};
use crate::marker::{Category, Closing, MarkerId, MarkerInfo, MarkerTable, TextRole};
use crate::tape::{self, NodeKind, Tape};

pub use crate::forms::form_and_numbers;

/// A finding as the published code gives it, or one of code 35, which it doesn't have. It doesn't say which node it is about.
#[derive(Clone, Debug, PartialEq, Eq)]
pub struct Found {
    /// 0 error, 1 warning, 2 info.
    pub severity: u32,
    /// Place in the published `DiagnosticCode`.
    pub code: u32,
    pub start: u32,
    pub len: u32,
    pub message: String,
}

/// What the published code makes of an accepted document.
#[derive(Clone, Debug, PartialEq, Eq)]
pub enum Validated {
    Findings(Vec<Found>),
    /// A sum left 32 bits: here document 01 departs from the published code, so that the two
    /// aren't compared. Given only where overflow checks are on, as in profile `compare`.
    Overflowed,
}

/// The published `validate` on an accepted document. Where it panics for any reason but an
/// overflowing sum, this panics too, with the document in its message.
pub fn validate(document: &Document) -> Validated {
    try_validate(document).unwrap_or_else(|why| panic!("{why}"))
}

/// The same; an unforeseen panic of the published code is an error with the document in hexadecimal.
pub fn try_validate(document: &Document) -> Result<Validated, String> {
    let run = || with_published(document, crate::validate::validate);
    match silently(run) {
        Ok(list) => Ok(Validated::Findings(list.into_iter().map(found).collect())),
        Err(payload) => match panic_text(&*payload) {
            "attempt to add with overflow" => Ok(Validated::Overflowed),
            why => Err(format!(
                "the published code panicked: {why}\n{}",
                document.to_hex()
            )),
        },
    }
}

/// Whether this build notices an overflowing sum. Without that the published code wraps silently.
pub fn overflow_is_noticed() -> bool {
    silently(|| std::hint::black_box(u32::MAX) + std::hint::black_box(1)).is_err()
}

pub(crate) fn found(diagnostic: Diagnostic) -> Found {
    Found {
        severity: match diagnostic.severity {
            Severity::Error => 0,
            Severity::Warning => 1,
            Severity::Info => 2,
        },
        code: diagnostic.code as u32,
        start: diagnostic.span.start,
        len: diagnostic.span.len,
        message: diagnostic.message,
    }
}

/// Runs `work` on the published cursor at the root of an accepted document.
pub(crate) fn with_published<T>(document: &Document, work: impl FnOnce(Cursor<'_>) -> T) -> T {
    let source = std::str::from_utf8(&document.source).expect("an accepted source is UTF-8");
    let nodes = document.nodes().map(published_node).collect();
    let tape = Tape { nodes };
    with_table(&document.table, |table| {
        work(Cursor::new(&tape, source, table, 0))
    })
}

/// Runs `work` on the published table with the markers of an accepted table text.
pub(crate) fn with_table<T>(text: &[u8], work: impl FnOnce(&MarkerTable) -> T) -> T {
    let read = entries(text).expect("an accepted table has its layout");
    let infos: Vec<MarkerInfo> = read.into_iter().map(published_info).collect();
    // SAFETY: the published table requires 'static. `with_lent` keeps no copy after it returns,
    // `work` can't let the table's own lifetime escape, and `infos` outlives the call.
    let lent: &'static [MarkerInfo] = unsafe { std::mem::transmute(infos.as_slice()) };
    MarkerTable::with_lent(lent, work)
}

fn published_info(entry: Entry<'_>) -> MarkerInfo {
    MarkerInfo {
        // SAFETY: the name lives as long as the table text, which `with_table` borrows for its
        // whole run, and the entry doesn't outlive that run.
        name: unsafe { std::mem::transmute::<&str, &'static str>(entry.name) },
        category: category(entry.category),
        text_role: role(entry.role),
        closing: Closing::None,
        usx_element: "",
        deprecated: None,
    }
}

fn category(place: usize) -> Category {
    [
        Category::Identification,
        Category::Chapter,
        Category::Verse,
        Category::Paragraph,
        Category::Character,
        Category::Note,
        Category::Milestone,
        Category::Other,
    ][place]
}

fn role(place: usize) -> TextRole {
    [TextRole::Content, TextRole::Excluded, TextRole::Boundary][place]
}

pub(crate) fn published_node(node: Node) -> tape::Node {
    tape::Node {
        kind: NodeKind::ALL[node.kind as usize],
        flags: node.flags,
        marker: MarkerId(node.marker),
        start: node.start,
        len: node.len,
        link: node.link,
    }
}

thread_local! {
    static SILENT: Cell<bool> = const { Cell::new(false) };
}

/// Catches a panic of `run` without a report of it on standard error.
fn silently<T>(run: impl FnOnce() -> T) -> Result<T, Box<dyn Any + Send>> {
    static HOOK: Once = Once::new();
    HOOK.call_once(|| {
        let usual = panic::take_hook();
        panic::set_hook(Box::new(move |info| {
            if !SILENT.get() {
                usual(info);
            }
        }));
    });
    SILENT.set(true);
    let result = panic::catch_unwind(AssertUnwindSafe(run));
    SILENT.set(false);
    result
}

fn panic_text(payload: &(dyn Any + Send)) -> &str {
    if let Some(text) = payload.downcast_ref::<&'static str>() {
        return text;
    }
    payload
        .downcast_ref::<String>()
        .map_or("no text", String::as_str)
}

#[cfg(test)]
mod tests;
