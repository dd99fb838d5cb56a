//! The operations as values, beside the functions of their names, into a new string.

use crate::corpora::{self, Corpus};
use crate::{OPERATIONS, Operation, SIZES, least, ours, part};

/// Prints the time by the function / the time by the value.
pub fn print() {
    println!("Time by the function / by the value, at 16 B, 64 B, 1 KB, 16 KB, 16 MB.\n");
    let corpora = corpora::all();
    let names: Vec<&str> = corpora.iter().map(|corpus| corpus.name).collect();
    println!("| operation | {} |\n|---|{}", names.join(" | "), "---|".repeat(names.len()));
    for operation in &OPERATIONS {
        let cells: Vec<String> = corpora.iter().map(|corpus| ratios(operation, corpus)).collect();
        println!("| `{}` | {} |", operation.name, cells.join(" | "));
    }
}

fn ratios(operation: &Operation, corpus: &Corpus) -> String {
    let ratio = |size| {
        let text = (operation.source)(part(&corpus.text, corpus.text.len() / 2, size));
        let [by_function, by_value] = least([
            &|| ours::string(operation.number, &text),
            &|| ours::value(operation.number, &text),
        ]);
        format!("{:.2}", by_function / by_value)
    };
    SIZES.map(ratio).join(" ")
}
