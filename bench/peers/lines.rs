//! Paragraphs in lines by the crate textwrap, of Debian: `lines first|optimal COLUMNS DICTIONARY|none PRICE < TEXT`.
//!
//! Empty lines part the paragraphs. With a dictionary words are broken by the crate hyphenation, which is this library's.
//! `optimal` has the penalties that make the cost of `hyphenate-lines --even`: squares, and the price of a hyphen.
use hyphenation::{Hyphenator, Load, Standard};
use std::io::{Read, Write};
use std::sync::OnceLock;
use std::{env, fs, io};
use textwrap::wrap_algorithms::Penalties;
use textwrap::{fill, Options, WordSeparator, WordSplitter, WrapAlgorithm};

static DICTIONARY: OnceLock<Standard> = OnceLock::new();

// Textwrap hands over a word with its punctuation: each run of letters in it is a word of the language.
fn places(word: &str) -> Vec<usize> {
    let Some(dictionary) = DICTIONARY.get() else {
        return Vec::new();
    };
    let mut found = Vec::new();
    let mut before = 0;
    for part in word.split_inclusive(|c: char| !c.is_alphabetic()) {
        let letters = part.trim_end_matches(|c: char| !c.is_alphabetic());
        found.extend(dictionary.hyphenate(letters).breaks.into_iter().map(|place| before + place));
        before += part.len();
    }
    found
}

fn main() {
    let arguments: Vec<String> = env::args().collect();
    let [_, way, columns, dictionary, price] = arguments.as_slice() else {
        panic!("usage: lines first|optimal COLUMNS DICTIONARY|none PRICE < TEXT");
    };
    let mut splitter = WordSplitter::NoHyphenation;
    if dictionary != "none" {
        let mut file = fs::File::open(dictionary).expect("a dictionary");
        let loaded = Standard::any_from_reader(&mut file).expect("a dictionary");
        DICTIONARY.set(loaded).expect("it is set once");
        splitter = WordSplitter::Custom(places);
    }
    let mut penalties = Penalties::new();
    penalties.nline_penalty = 0;
    penalties.overflow_penalty = 1_000_000;
    penalties.short_last_line_penalty = 0;
    penalties.hyphen_penalty = price.parse().expect("a price");
    let way = match way.as_str() {
        "first" => WrapAlgorithm::FirstFit,
        _ => WrapAlgorithm::OptimalFit(penalties),
    };
    let options = Options::new(columns.parse().expect("columns"))
        .break_words(false)
        .word_separator(WordSeparator::AsciiSpace)
        .word_splitter(splitter)
        .wrap_algorithm(way);
    let mut text = String::new();
    io::stdin().read_to_string(&mut text).expect("a text");
    let mut made = Vec::new();
    let mut paragraph = String::new();
    for line in text.lines().chain([""]) {
        if !line.trim().is_empty() {
            for word in line.split_whitespace() {
                if !paragraph.is_empty() {
                    paragraph.push(' ');
                }
                paragraph.push_str(word);
            }
        } else if !paragraph.is_empty() {
            made.push(fill(&paragraph, &options));
            paragraph.clear();
        }
    }
    io::stdout().write_all((made.join("\n\n") + "\n").as_bytes()).expect("it is written");
}
