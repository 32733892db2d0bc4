//! The library's reading of texts beside the plain reader of document 02's K5, which looks names up in a hash map, on the same texts
//! in one run: each checks table and text and makes all nodes.
//!
//! The arguments choose sections, all of them without any; `--markdown` gives the tables as Markdown. Ends with status 1 if a text
//! of the section `adversarial` takes the library more than a second.

use std::process::ExitCode;
use std::time::Duration;

use oracle::arguments::sections;
use oracle::books::{Manner, Style, bible, book, filled};
use oracle::document::Document;
use oracle::drafts::{self, Draft, Large, of_book, shapes};
use oracle::timed::{Best, Readings, Sheet, grouped, ratio, rounds, seconds};

const SECTIONS: [&str; 4] = ["books", "bible", "growth", "adversarial"];

const HEADS: [&str; 9] = [
    "Text",
    "Nodes",
    "Bytes",
    "Library",
    "Rust",
    "Ratio",
    "M nodes/s",
    "MB/s",
    "Rounds",
];

/// The longest that a text may take the library, in seconds.
const LIMIT: f64 = 1.0;

/// How many times a whole section is measured: what runs besides can slow down one of them.
const SWEEPS: usize = 4;

/// How long a book may take each time, and a shape.
const BOOK: Duration = Duration::from_millis(250);
const SHAPE: Duration = Duration::from_millis(60);

/// Texts that are read one after another, under a name.
struct Item {
    name: String,
    drafts: Vec<Draft>,
    readings: Readings,
}

impl Item {
    fn new(name: &str, drafts: Vec<Draft>) -> Item {
        Item {
            name: name.to_string(),
            readings: Readings::new(&drafts),
            drafts,
        }
    }

    fn of_book(name: &str, document: &Document) -> Item {
        Item::new(name, vec![of_book(document)])
    }
}

fn measure(items: &mut [Item], time: Duration) {
    for _ in 0..SWEEPS {
        for item in &mut *items {
            item.readings.sweep(&item.drafts, time);
        }
    }
}

fn row(item: &Item) -> Vec<String> {
    let it = &item.readings;
    let library = it.library.seconds;
    vec![
        item.name.clone(),
        grouped(it.nodes),
        grouped(it.bytes as u64),
        seconds(library),
        seconds(it.rust.seconds),
        ratio(library / it.rust.seconds),
        format!("{:.1}", it.nodes as f64 / library / 1e6),
        format!("{:.0}", it.bytes as f64 / library / 1e6),
        rounds(it.library.rounds, it.rust.rounds),
    ]
}

fn sheet(mut items: Vec<Item>) -> Sheet {
    let mut sheet = Sheet::new(&HEADS);
    measure(&mut items, BOOK);
    items.iter().for_each(|item| sheet.push(row(item)));
    sheet
}

fn books() -> Sheet {
    let mut items = vec![
        Item::of_book("Genesis", &book("GEN", Style::Plain)),
        Item::of_book("Psalms", &book("PSA", Style::Plain)),
        Item::of_book("James, word by word", &book("JAS", Style::WordLevel)),
    ];
    let largest =
        |Large { name, draft }| Item::new(&format!("the largest: {name}"), vec![draft(1)]);
    items.extend(drafts::books().into_iter().map(largest));
    sheet(items)
}

fn bibles() -> Sheet {
    let of_style = |name: &str, style| {
        let drafts: Vec<Draft> = bible(style).iter().map(of_book).collect();
        let smallest = drafts.iter().min_by_key(|draft| draft.text.len()).cloned();
        let smallest = smallest.expect("a Bible has texts");
        let all = format!("{name}, {} texts", drafts.len());
        [
            Item::new(&all, drafts),
            Item::new(&format!("{name}, its smallest text"), vec![smallest]),
        ]
    };
    let plain = of_style("Bible", Style::Plain);
    let words = of_style("Bible word by word", Style::WordLevel);
    sheet(plain.into_iter().chain(words).collect())
}

fn growth() -> Sheet {
    let heads = [
        "Text",
        "Nodes",
        "Bytes",
        "Library",
        "Rust",
        "Ratio",
        "Library ns/byte",
        "Rust ns/byte",
    ];
    let books = [
        ("poetry", Style::Plain, Manner::Poetry),
        ("word by word", Style::WordLevel, Manner::Prose),
    ];
    let sizes = [1_000, 2_000, 4_000, 8_000, 16_000, 32_000, 57_000];
    let items = books.iter().flat_map(|&(name, style, manner)| {
        sizes.map(|nodes| Item::of_book(name, &filled(style, manner, nodes)))
    });
    let mut items: Vec<Item> = items.collect();
    measure(&mut items, BOOK);
    let mut sheet = Sheet::new(&heads);
    for item in &items {
        let it = &item.readings;
        let (library, rust) = (it.library.seconds, it.rust.seconds);
        let each = |time: f64| format!("{:.2}", time * 1e9 / it.bytes as f64);
        sheet.push(vec![
            item.name.clone(),
            grouped(it.nodes),
            grouped(it.bytes as u64),
            seconds(library),
            seconds(rust),
            ratio(library / rust),
            each(library),
            each(rust),
        ]);
    }
    sheet
}

/// How many times as long the larger one takes.
fn grown(larger: Best, smaller: Best) -> String {
    format!("{:.1}", larger.seconds / smaller.seconds)
}

/// Each shape of 1 MiB, with how many times as long it takes as at half of it: twice where time grows as the text does. Besides,
/// the shapes that take the library longer than the limit.
fn adversarial() -> (Sheet, Vec<String>) {
    let more = ["Library growth", "Rust growth"];
    let heads: Vec<&str> = HEADS.into_iter().chain(more).collect();
    let (mut sheet, mut slow) = (Sheet::new(&heads), Vec::new());
    for Large { name, draft } in shapes() {
        let mut items = [1, 2].map(|by| Item::new(name, vec![draft(by)]));
        measure(&mut items, SHAPE);
        let [whole, half] = items;
        let time = whole.readings.library.seconds;
        let mut cells = row(&whole);
        cells.push(grown(whole.readings.library, half.readings.library));
        cells.push(grown(whole.readings.rust, half.readings.rust));
        sheet.push(cells);
        if time > LIMIT {
            slow.push(format!("{name}: {}", seconds(time)));
        }
    }
    (sheet, slow)
}

fn main() -> ExitCode {
    let (names, markdown) = match sections(&SECTIONS) {
        Ok(chosen) => chosen,
        Err(why) => {
            eprintln!("{why}");
            return ExitCode::from(2);
        }
    };
    let mut slow = Vec::new();
    for name in names {
        let sheet = match name.as_str() {
            "books" => books(),
            "bible" => bibles(),
            "growth" => growth(),
            _ => {
                let (sheet, found) = adversarial();
                slow = found;
                sheet
            }
        };
        println!("{name}\n\n{}", sheet.text(markdown));
    }
    for line in &slow {
        println!("over a second: {line}");
    }
    ExitCode::from(u8::from(!slow.is_empty()))
}
