//! A page of twenty slots: by one template, by hand with this library, and by hand with the Rust crate.

use crate::corpora::{self, Corpus};
use crate::{least, ours, part};
use html_escape as theirs;
use std::hint::black_box;

const SLOTS: usize = 20;

/// How many pages a call makes, so that what it does once costs next to nothing.
const PAGES: usize = 1000;

/// Prints the nanoseconds of a page.
pub fn print() {
    println!("Nanoseconds a page: by a template, by hand, by hand with the Rust crate.\n");
    println!("| text | bytes | into a string that was cleared | into a new string |");
    println!("|---|---|---|---|");
    for corpus in corpora::all() {
        let texts = texts_of(&corpus);
        let page = compare(&corpus, &texts);
        let [kept, fresh] = [true, false].map(|is_kept| {
            measure(is_kept, &texts).map(|time| format!("{time:.0}")).join(", ")
        });
        println!("| {} | {page} | {kept} | {fresh} |", corpus.name);
    }
}

/// Twenty texts of 5 to 60 bytes or some more, one after another.
fn texts_of(corpus: &Corpus) -> Vec<String> {
    let mut start = corpus.text.len() / 2;
    let mut texts = Vec::new();
    for number in 0..SLOTS {
        while !corpus.text.is_char_boundary(start) {
            start += 1;
        }
        let text = part(&corpus.text[start..], 0, 5 + number * 23 % 56);
        start += text.len();
        texts.push(text.replace('\n', " "));
    }
    texts
}

/// The least times: by a template, by hand, and by hand with the Rust crate.
fn measure(is_kept: bool, texts: &[String]) -> [f64; 3] {
    let lines = texts.join("\n");
    least([
        &|| ours::template(is_kept, PAGES, &lines).len(),
        &|| ours::by_hand(is_kept, PAGES, &lines).len(),
        &|| theirs_by_hand(is_kept, texts).len(),
    ])
    .map(|time| time / PAGES as f64)
}

fn theirs_by_hand(is_kept: bool, texts: &[String]) -> String {
    let mut page = String::new();
    for _ in 0..PAGES {
        if is_kept {
            page.clear();
        } else {
            page = String::new();
        }
        their_page(black_box(texts), &mut page);
    }
    page
}

#[inline(never)]
fn their_page(texts: &[String], page: &mut String) {
    for row in texts.chunks_exact(2) {
        page.push_str("<p title=\"");
        theirs::encode_double_quoted_attribute_to_string(&row[0], page);
        page.push_str("\">");
        theirs::encode_text_to_string(&row[1], page);
        page.push_str("</p>");
    }
}

/// The length of the page, which is the same by all ways.
fn compare(corpus: &Corpus, texts: &[String]) -> usize {
    let lines = texts.join("\n");
    let mut page = String::new();
    their_page(texts, &mut page);
    for is_kept in [true, false] {
        for made in [ours::template(is_kept, 2, &lines), ours::by_hand(is_kept, 2, &lines)] {
            assert!(made == page.as_bytes(), "the pages of {} differ", corpus.name);
        }
    }
    page.len()
}
