//! wrap DICTIONARY COLUMNS < TEXT: a text in lines of a width, by the crate textwrap and a standard dictionary.
//!
//! Textwrap takes a function that splits words, so the dictionary is loaded once into a static. With Debian's package
//! librust-textwrap-dev it is built without a network, in this folder:
//!
//!     cargo run --offline --config 'source.crates-io.replace-with="debian"' \
//!       --config 'source.debian.directory="/usr/share/cargo/registry"' -- en-us.txt 30 < page.txt
use hyphenation::{Hyphenator, Load, Standard};
use std::error::Error;
use std::io::Read;
use std::sync::OnceLock;
use std::{env, fs, io};
use textwrap::{fill, Options, WordSplitter};

static DICTIONARY: OnceLock<Standard> = OnceLock::new();

// Textwrap hands over a word with its punctuation: the letters between are the word of the language.
fn places(word: &str) -> Vec<usize> {
    let Some(dictionary) = DICTIONARY.get() else {
        return Vec::new();
    };
    let letters = word.trim_start_matches(|c: char| !c.is_alphanumeric());
    let before = word.len() - letters.len();
    let letters = letters.trim_end_matches(|c: char| !c.is_alphanumeric());
    dictionary.hyphenate(letters).breaks.into_iter().map(|place| before + place).collect()
}

fn main() -> Result<(), Box<dyn Error>> {
    let mut arguments = env::args().skip(1);
    let path = arguments.next().ok_or("no dictionary")?;
    let columns: usize = arguments.next().ok_or("no columns")?.parse()?;
    let dictionary = Standard::any_from_reader(&mut fs::File::open(path)?)?;
    DICTIONARY.set(dictionary).expect("it is set once");
    let mut text = String::new();
    io::stdin().read_to_string(&mut text)?;
    let options = Options::new(columns).word_splitter(WordSplitter::Custom(places));
    println!("{}", fill(text.trim_end(), options));
    Ok(())
}
