//! The whole check beside the published code on the same documents, in one run: our checks of table, source and tape included,
//! against `from_utf8` and `validate` over a `Vec<Node>` and a table that are there.
//!
//! The arguments choose sections, all of them without any; `--markdown` gives the tables as Markdown. Ends with status 1 if a
//! shape of the section `adversarial` takes the library more than a second.

use std::process::ExitCode;
use std::time::Duration;

use oracle::arguments::sections;
use oracle::books::{Manner, Shape, Style, bible, book, filled, overlapping, shapes};
use oracle::document::Document;
use oracle::refusals::MOST_NODES;
use oracle::timed::{Best, Measured, Sheet, Texts, grouped, ratio, rounds, seconds};

const SECTIONS: [&str; 5] = ["books", "bible", "growth", "adversarial", "overlapping"];

const HEADS: [&str; 10] = [
    "Document",
    "Nodes",
    "Bytes",
    "Findings",
    "Library",
    "Rust",
    "Ratio",
    "M nodes/s",
    "MB/s",
    "Rounds",
];

/// The longest that a shape may take the library, in seconds.
const LIMIT: f64 = 1.0;

/// How many times a whole section is measured: what runs besides can slow down one of them.
const SWEEPS: usize = 4;

/// How long a book may take each time, and a shape.
const BOOK: Duration = Duration::from_millis(250);
const SHAPE: Duration = Duration::from_millis(80);

/// Documents that are checked one after another, under a name.
struct Item {
    name: String,
    documents: Vec<Document>,
    measured: Measured,
}

impl Item {
    fn new(name: &str, documents: Vec<Document>, texts: Texts) -> Item {
        Item {
            name: name.to_string(),
            measured: Measured::new(&documents, texts),
            documents,
        }
    }

    fn of_one(name: &str, document: Document) -> Item {
        Item::new(name, vec![document], Texts::Left)
    }
}

fn measure(items: &mut [Item], time: Duration) {
    for _ in 0..SWEEPS {
        for item in &mut *items {
            item.measured.sweep(&item.documents, time);
        }
    }
}

fn row(name: &str, it: &Measured, library: f64) -> Vec<String> {
    vec![
        name.to_string(),
        grouped(it.nodes as u64),
        grouped(it.bytes as u64),
        grouped(it.findings),
        seconds(library),
        seconds(it.rust.seconds),
        ratio(library / it.rust.seconds),
        format!("{:.1}", it.nodes as f64 / library / 1e6),
        format!("{:.0}", it.bytes as f64 / library / 1e6),
        rounds(it.library.rounds, it.rust.rounds),
    ]
}

/// A row for each check, and one more for a check with its texts.
fn plain_sheet(mut items: Vec<Item>) -> Sheet {
    let mut sheet = Sheet::new(&HEADS);
    measure(&mut items, BOOK);
    for item in &items {
        let (name, it) = (&item.name, &item.measured);
        sheet.push(row(name, it, it.library.seconds));
        if let Some(best) = it.with_texts {
            sheet.push(row(&format!("{name}, with texts"), it, best.seconds));
        }
    }
    sheet
}

fn books() -> Sheet {
    let largest = |style, manner| vec![filled(style, manner, MOST_NODES)];
    let book = |code, style| vec![book(code, style)];
    let (plain, faulty, words) = (Style::Plain, Style::Faulty, Style::WordLevel);
    let (prose, poetry) = (Manner::Prose, Manner::Poetry);
    let (left, made) = (Texts::Left, Texts::Made);
    plain_sheet(vec![
        Item::new("clean, Genesis", book("GEN", plain), left),
        Item::new("clean, Psalms", book("PSA", plain), left),
        Item::new("word by word, James", book("JAS", words), left),
        Item::new("many findings, Genesis", book("GEN", faulty), made),
        Item::new("largest clean, prose", largest(plain, prose), left),
        Item::new("largest clean, poetry", largest(plain, poetry), left),
        Item::new("largest word by word", largest(words, prose), left),
        Item::new("largest with findings", largest(faulty, poetry), made),
    ])
}

/// A Bible, and its smallest and its largest document.
fn with_ends(name: &str, documents: Vec<Document>) -> [Item; 3] {
    let smallest = documents.iter().min_by_key(|it| it.node_count()).cloned();
    let largest = documents.iter().max_by_key(|it| it.node_count()).cloned();
    let [smallest, largest] = [smallest, largest].map(|it| it.expect("a Bible has documents"));
    let all = format!("{name}, {} documents", documents.len());
    [
        Item::new(&all, documents, Texts::Made),
        Item::of_one(&format!("{name}, its smallest document"), smallest),
        Item::of_one(&format!("{name}, its largest document"), largest),
    ]
}

fn bibles() -> Sheet {
    let plain = with_ends("Bible", bible(Style::Plain));
    let words = with_ends("Bible word by word", bible(Style::WordLevel));
    plain_sheet(plain.into_iter().chain(words).collect())
}

fn growing() -> Vec<Item> {
    let books = [
        ("clean, poetry", Style::Plain, Manner::Poetry),
        ("word by word", Style::WordLevel, Manner::Prose),
    ];
    let sizes = [1_000, 2_000, 4_000, 8_000, 16_000, 32_000, MOST_NODES];
    let items = books.iter().flat_map(|&(name, style, manner)| {
        sizes.map(|nodes| Item::of_one(name, filled(style, manner, nodes)))
    });
    items.collect()
}

fn growth() -> Sheet {
    let heads = [
        "Document",
        "Nodes",
        "Bytes",
        "Library",
        "Rust",
        "Ratio",
        "Library ns/node",
        "Rust ns/node",
    ];
    let mut sheet = Sheet::new(&heads);
    let mut items = growing();
    measure(&mut items, BOOK);
    for item in &items {
        let it = &item.measured;
        let (library, rust) = (it.library.seconds, it.rust.seconds);
        let each = |time: f64| format!("{:.1}", time * 1e9 / it.nodes as f64);
        sheet.push(vec![
            item.name.clone(),
            grouped(it.nodes as u64),
            grouped(it.bytes as u64),
            seconds(library),
            seconds(rust),
            ratio(library / rust),
            each(library),
            each(rust),
        ]);
    }
    sheet
}

/// How many times as long the larger one takes.
fn grown(larger: Best, smaller: Best) -> String {
    format!("{:.1}", larger.seconds / smaller.seconds)
}

/// Each shape at its largest size, with how many times as long it takes as at half of it: twice where time grows as the
/// document does. Besides, the shapes that take the library longer than the limit.
fn shape_sheet(list: &[Shape]) -> (Sheet, Vec<String>) {
    let more = ["Library growth", "Rust growth"];
    let heads: Vec<&str> = HEADS.into_iter().chain(more).collect();
    let (mut sheet, mut slow) = (Sheet::new(&heads), Vec::new());
    let item = |by| move |shape: &Shape| Item::of_one(shape.name, (shape.document)(by));
    let (whole, half) = (list.iter().map(item(1)), list.iter().map(item(2)));
    let mut items: Vec<Item> = whole.chain(half).collect();
    measure(&mut items, SHAPE);
    let (whole, half) = items.split_at(list.len());
    for (item, half) in whole.iter().zip(half) {
        let (it, half) = (&item.measured, &half.measured);
        let time = it.library.seconds;
        let mut cells = row(&item.name, it, time);
        cells.push(grown(it.library, half.library));
        cells.push(grown(it.rust, half.rust));
        sheet.push(cells);
        if time > LIMIT {
            slow.push(format!("{}: {}", item.name, seconds(time)));
        }
    }
    (sheet, slow)
}

fn main() -> ExitCode {
    let (names, markdown) = match sections(&SECTIONS) {
        Ok(chosen) => chosen,
        Err(why) => {
            eprintln!("{why}");
            return ExitCode::from(2);
        }
    };
    let mut slow = Vec::new();
    for name in names {
        let sheet = match name.as_str() {
            "books" => books(),
            "bible" => bibles(),
            "growth" => growth(),
            "overlapping" => shape_sheet(&overlapping()).0,
            _ => {
                let (sheet, found) = shape_sheet(&shapes());
                slow = found;
                sheet
            }
        };
        println!("{name}\n\n{}", sheet.text(markdown));
    }
    for line in &slow {
        println!("over a second: {line}");
    }
    ExitCode::from(u8::from(!slow.is_empty()))
}
