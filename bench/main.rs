//! The operations of the two crates beside each other, by sizes and forms: ratios of their times, and
//! of ours to that of a plain copy.
mod corpora;
mod ours;
mod page;
mod values;

use corpora::Corpus;
use html_escape as theirs;
use std::borrow::Cow;
use std::hint::black_box;
use std::time::{Duration, Instant};

const SIZES: [usize; 5] = [16, 64, 1 << 10, 16 << 10, corpora::LENGTH];

/// How much is appended to one page.
const PAGE: usize = 64 << 10;

const TURNS: usize = 25;

/// The least time of a turn: below it the calls of a turn are doubled.
const LEAST: Duration = Duration::from_micros(100);

struct Operation {
    name: &'static str,
    number: u32,
    cow: fn(&str) -> Cow<'_, str>,
    string: for<'o> fn(&str, &'o mut String) -> &'o str,
    /// Makes the decoder's source of a text.
    source: fn(&str) -> Cow<'_, str>,
}

fn itself(text: &str) -> Cow<'_, str> {
    Cow::Borrowed(text)
}

macro_rules! operation {
    ($number:literal, $cow:ident, $string:ident, $source:expr) => {
        Operation {
            name: stringify!($cow),
            number: $number,
            cow: |text| theirs::$cow(text),
            string: |text, output| theirs::$string(text, output),
            source: $source,
        }
    };
}

const OPERATIONS: [Operation; 9] = [
    operation!(0, encode_text, encode_text_to_string, itself),
    operation!(
        1,
        encode_double_quoted_attribute,
        encode_double_quoted_attribute_to_string,
        itself
    ),
    operation!(2, encode_safe, encode_safe_to_string, itself),
    operation!(3, encode_unquoted_attribute, encode_unquoted_attribute_to_string, itself),
    operation!(4, encode_script, encode_script_to_string, itself),
    operation!(5, encode_script_quoted_text, encode_script_quoted_text_to_string, itself),
    operation!(6, decode_html_entities, decode_html_entities_to_string, |text| {
        theirs::encode_safe(text)
    }),
    operation!(7, decode_script, decode_script_to_string, |text| theirs::encode_script(text)),
    operation!(8, decode_script_quoted_text, decode_script_quoted_text_to_string, |text| {
        theirs::encode_script_quoted_text(text)
    }),
];

fn main() {
    keep_memory();
    let wanted: Vec<String> = std::env::args().skip(1).collect();
    if wanted == ["page"] {
        return page::print();
    }
    if wanted == ["values"] {
        return values::print();
    }
    let corpora = corpora::all();
    println!("Their time / ours, at 16 B, 64 B, 1 KB, 16 KB, 16 MB; least of {TURNS} turns.");
    println!("Last: the time of a plain copy / ours, at 16 KB, for each text.");
    println!();
    print!("| operation, form |");
    for corpus in &corpora {
        print!(" {} |", corpus.name);
    }
    println!(" beside a copy |\n|---|{}---|", "---|".repeat(corpora.len()));
    let (mut cells, mut below) = (0, 0);
    for operation in &OPERATIONS {
        if wanted.is_empty() || wanted.iter().any(|name| name == operation.name) {
            for form in [Form::Borrowed, Form::String, Form::Appended] {
                let ratios = measure(operation, form, &corpora);
                cells += ratios.len();
                below += ratios.iter().filter(|ratio| **ratio < 1.0).count();
            }
        }
    }
    println!("\n{cells} cells, {below} below 1.0");
}

#[derive(Clone, Copy, PartialEq)]
enum Form {
    /// The text is borrowed where nothing changes.
    Borrowed,
    /// A new string for each text.
    String,
    /// One page that grows, to which the text is appended again and again.
    Appended,
}

/// Prints the row of the form, and returns its ratios.
fn measure(operation: &Operation, form: Form, corpora: &[Corpus]) -> Vec<f64> {
    let word = match form {
        Form::Borrowed => "borrowed",
        Form::String => "string",
        Form::Appended => "appended",
    };
    let mut row = format!("| `{}`, {word} |", operation.name);
    let (mut ratios, mut copies) = (Vec::new(), Vec::new());
    for corpus in corpora {
        let mut cells = Vec::new();
        for size in SIZES {
            if form == Form::Appended && size > PAGE {
                continue;
            }
            let text = (operation.source)(part(&corpus.text, corpus.text.len() / 2, size));
            compare(operation, corpus.name, &text);
            let [ours, theirs, copy] = race(operation, form, &text);
            cells.push(format!("{:.2}", theirs / ours));
            ratios.push(theirs / ours);
            if size == 16 << 10 {
                copies.push(format!("{:.2}", copy / ours));
            }
        }
        row += &format!(" {} |", cells.join(" "));
    }
    println!("{row} {} |", copies.join(" "));
    ratios
}

/// So many bytes of the text or some more, from a place on; the whole text where it has no more.
fn part(text: &str, from: usize, size: usize) -> &str {
    let boundary = |mut at: usize| {
        while !text.is_char_boundary(at) {
            at += 1;
        }
        at
    };
    if size >= text.len() {
        return text;
    }
    let start = boundary(from);
    &text[start..boundary(start + size)]
}

/// The least times of a call in nanoseconds, turn by turn: ours, theirs, and a plain copy.
fn race(operation: &Operation, form: Form, text: &str) -> [f64; 3] {
    let times = PAGE / text.len() + 1;
    let their_cow = || (operation.cow)(black_box(text)).len();
    let their_string = |times: usize| {
        let mut page = String::new();
        for _ in 0..times {
            (operation.string)(black_box(text), &mut page);
        }
        page.len()
    };
    let copy = |times: usize| {
        let mut page = String::new();
        for _ in 0..times {
            page.push_str(black_box(text));
        }
        page.len()
    };
    match form {
        Form::Borrowed => {
            least([&|| ours::cow(operation.number, text), &their_cow, &|| copy(1)])
        }
        Form::String => least([
            &|| ours::string(operation.number, text),
            &|| their_string(1),
            &|| copy(1),
        ]),
        Form::Appended => least([
            &|| ours::append(operation.number, times, text),
            &|| their_string(times),
            &|| copy(times),
        ]),
    }
}

fn least<const SIDES: usize>(runs: [&dyn Fn() -> usize; SIDES]) -> [f64; SIDES] {
    let calls = runs.map(|run| {
        let mut calls = 1u32;
        while time(run, calls) < LEAST {
            calls *= 2;
        }
        calls
    });
    let mut least = [f64::MAX; SIDES];
    for _ in 0..TURNS {
        for side in 0..SIDES {
            let spent = time(runs[side], calls[side]).as_nanos() as f64;
            least[side] = least[side].min(spent / f64::from(calls[side]));
        }
    }
    least
}

fn time(run: &dyn Fn() -> usize, calls: u32) -> Duration {
    let start = Instant::now();
    for _ in 0..calls {
        black_box(run());
    }
    start.elapsed()
}

fn compare(operation: &Operation, corpus: &str, text: &str) {
    let made = (operation.cow)(text);
    assert!(
        ours::copy(operation.number, text) == made.as_bytes(),
        "{} differs on {corpus}",
        operation.name
    );
}

/// Lets the process keep the memory that either side frees, so that no turn waits for pages.
fn keep_memory() {
    unsafe extern "C" {
        fn mallopt(parameter: i32, value: i32) -> i32;
    }
    const TRIM_THRESHOLD: i32 = -1;
    const MMAP_THRESHOLD: i32 = -3;
    unsafe {
        mallopt(TRIM_THRESHOLD, i32::MAX);
        mallopt(MMAP_THRESHOLD, i32::MAX);
    }
}
