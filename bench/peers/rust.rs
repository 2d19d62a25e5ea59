//! The crate hyphenation, from Rust: this library's, or Debian's. It does and prints as the programs in C do.
//!
//! The name of a dictionary's file begins with the code of its language.
use hyphenation::{Hyphenator, Language, Load, Standard};
use std::path::Path;
use std::{env, fs};

fn load(path: &str) -> Standard {
    let name = Path::new(path).file_name().and_then(|name| name.to_str()).expect("a file");
    let language = match name.split('.').next() {
        Some("en-us") => Language::EnglishUS,
        Some("de-1996") => Language::German1996,
        Some("hu") => Language::Hungarian,
        Some("ru") => Language::Russian,
        _ => panic!("no language of {name}"),
    };
    Standard::from_path(language, path).expect("a dictionary")
}

fn breaks_of_lines(dictionary: &Standard, lines: &str) -> usize {
    lines.split_terminator('\n').map(|word| dictionary.hyphenate(word).breaks.len()).sum()
}

// The words of the text are its runs of letters.
fn breaks_of_text(dictionary: &Standard, text: &str, marked: &mut String) -> usize {
    let mut found = 0;
    marked.clear();
    for part in text.split_inclusive(|c: char| !c.is_alphabetic()) {
        let word = part.trim_end_matches(|c: char| !c.is_alphabetic());
        let mut at = 0;
        for place in dictionary.hyphenate(word).breaks {
            marked.push_str(&part[at..place]);
            marked.push('-');
            at = place;
            found += 1;
        }
        marked.push_str(&part[at..]);
    }
    found
}

#[repr(C)]
struct Timespec {
    seconds: i64,
    nanoseconds: i64,
}

extern "C" {
    fn clock_gettime(clock: i32, time: *mut Timespec) -> i32;
}

// CLOCK_PROCESS_CPUTIME_ID of Linux.
const PROCESS: i32 = 2;

// The processor time of this process.
fn nanoseconds() -> i64 {
    let mut time = Timespec { seconds: 0, nanoseconds: 0 };
    // SAFETY: the struct is that of Linux on 64 bits, and lives during the call.
    assert_eq!(unsafe { clock_gettime(PROCESS, &mut time) }, 0, "there is no clock");
    time.seconds * 1_000_000_000 + time.nanoseconds
}

fn main() {
    let arguments: Vec<String> = env::args().collect();
    let [_, dictionary, file, task, times] = arguments.as_slice() else {
        panic!("usage: PROGRAM DICTIONARY FILE words|text TIMES");
    };
    let given = fs::read_to_string(file).expect("a file");
    let mut marked = String::with_capacity(2 * given.len());
    let dictionary = load(dictionary);
    let mut found = 0;
    let begun = nanoseconds();
    for _ in 0..times.parse().expect("a number") {
        found = match task.as_str() {
            "text" => breaks_of_text(&dictionary, &given, &mut marked),
            _ => breaks_of_lines(&dictionary, &given),
        };
    }
    println!("{found} {}", nanoseconds() - begun);
}
