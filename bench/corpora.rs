//! Texts of 16 MB from a generator with a fixed seed.

pub const LENGTH: usize = 16 << 20;

pub struct Corpus {
    pub name: &'static str,
    pub text: String,
}

/// Numbers that look random and are the same in every run (xorshift).
struct Numbers(u64);

impl Numbers {
    fn below(&mut self, bound: usize) -> usize {
        self.0 ^= self.0 << 13;
        self.0 ^= self.0 >> 7;
        self.0 ^= self.0 << 17;
        (self.0 >> 11) as usize % bound
    }

    fn one_of<T: Copy>(&mut self, items: &[T]) -> T {
        items[self.below(items.len())]
    }
}

pub fn all() -> Vec<Corpus> {
    vec![
        corpus("clean", clean),
        corpus("html", html),
        corpus("dense", dense),
        corpus("utf8", multilingual),
    ]
}

fn corpus(name: &'static str, add: fn(&mut Numbers, &mut String)) -> Corpus {
    let mut numbers = Numbers(0x9E37_79B9_7F4A_7C15);
    let mut text = String::with_capacity(LENGTH + 100);
    while text.len() < LENGTH {
        add(&mut numbers, &mut text);
    }
    while !text.is_char_boundary(LENGTH) {
        text.push(' ');
        text.remove(LENGTH - 1);
    }
    text.truncate(LENGTH);
    Corpus { name, text }
}

fn word(numbers: &mut Numbers, letters: &[char], text: &mut String) {
    for _ in 0..1 + numbers.below(9) {
        text.push(numbers.one_of(letters));
    }
}

const LATIN: [char; 26] = [
    'a', 'b', 'c', 'd', 'e', 'f', 'g', 'h', 'i', 'j', 'k', 'l', 'm', 'n', 'o', 'p', 'q', 'r', 's',
    't', 'u', 'v', 'w', 'x', 'y', 'z',
];

/// Prose in ASCII that has nothing to replace but for an unquoted value.
fn clean(numbers: &mut Numbers, text: &mut String) {
    word(numbers, &LATIN, text);
    text.push_str(numbers.one_of(&[" ", " ", " ", " ", " ", ", ", ". "]));
}

/// Prose with tags, references and comments: 3 of 100 bytes are `&`, `<`, `>` or a quote mark.
fn html(numbers: &mut Numbers, text: &mut String) {
    for _ in 0..26 {
        clean(numbers, text);
    }
    match numbers.below(64) {
        0 => text.push_str("<!-- a note -->"),
        1 => text.push_str("<script>f('x' + \"\\n\")</script>"),
        2..16 => text.push_str("Q&A "),
        16..24 => text.push_str("it's "),
        _ => {
            text.push_str("<p class=\"");
            word(numbers, &LATIN, text);
            text.push_str("\">");
            clean(numbers, text);
            text.push_str("</p>\n");
        }
    }
}

/// Nearly all bytes are replaced by one encoder or another.
fn dense(numbers: &mut Numbers, text: &mut String) {
    text.push_str(numbers.one_of(&[
        "&", "<", ">", "\"", "'", "/", "\\", "a", "&", "<", ">", "\"", "'", "/", "</script>",
        "<!--",
    ]));
}

const SCRIPTS: [&[char]; 5] = [
    &['a', 'e', 'i', 'o', 'u', 'n', 's', 't', 'ä', 'ö', 'ü', 'ß', 'é', 'ñ'],
    &['а', 'в', 'е', 'и', 'к', 'н', 'о', 'р', 'с', 'т', 'у', 'ы', 'я'],
    &['α', 'ε', 'ι', 'κ', 'λ', 'ν', 'ο', 'ρ', 'σ', 'τ', 'ω'],
    &['日', '本', '語', '中', '文', '字', '人', '大', '小', 'の', 'は', 'を'],
    &['ا', 'ب', 'ت', 'ر', 'س', 'ل', 'م', 'ن', 'ه', 'و', 'ي'],
];

/// Words of five scripts, now and then a sign that is replaced, and signs that begin as U+2028.
fn multilingual(numbers: &mut Numbers, text: &mut String) {
    let letters = numbers.one_of(&SCRIPTS);
    for _ in 0..8 {
        word(numbers, letters, text);
        text.push(' ');
    }
    text.push_str(numbers.one_of(&["… ", "— ", "„“ ", "😀 ", "& ", "< ", "\"", "' "]));
}
