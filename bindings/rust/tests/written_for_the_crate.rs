// A program as it is written for the crate 0.8.4: it names each item that this has, in the ways that programs name them, and
// is checked by the compiler more than by its assertions.
extern crate hyphenation;

use hyphenation::extended::*;
use hyphenation::hyphenator::{soft_hyphen_indices, Word};
use hyphenation::iter::{Hyphenating, Segments, SegmentsExt};
use hyphenation::load::Error;
use hyphenation::score::Score;
use hyphenation::Language::*;
use hyphenation::*;

use std::borrow::Cow;
use std::collections::{BTreeSet, HashSet};
use std::io::Cursor;
use std::sync::OnceLock;

const ENGLISH: &str = "hyphenation 1 standard\nlanguage en-us\nminima 2 3\np y1p\np n1a\np 1ti\ne present 4\n";
const HUNGARIAN: &str = "hyphenation 1 extended\nlanguage hu\nminima 2 2\np .as1szo 3,1,2,2,szsz\ne kilim 2\n";

// A dictionary in a static is shared by all threads of the program.
static EN_US: OnceLock<Standard> = OnceLock::new();

fn en_us() -> &'static Standard {
    EN_US.get_or_init(|| Standard::from_reader(EnglishUS, &mut Cursor::new(ENGLISH)).unwrap())
}

fn hu() -> Extended {
    Extended::any_from_reader(&mut Cursor::new(HUNGARIAN)).unwrap()
}

// A function for whatever dictionary, and one that returns what a dictionary lends.
fn number_of_breaks<'h, H: Hyphenator<'h>>(dictionary: &'h H, word: &str) -> usize {
    dictionary.opportunities(word).len()
}

fn first_change<'d>(dictionary: &'d Extended, word: &str) -> Option<&'d Subregion> {
    dictionary.hyphenate(word).breaks.into_iter().find_map(|(_, change)| change)
}

fn loads<D: Load>(lang: Language, text: &str) -> Result<D, Error> {
    D::from_reader(lang, &mut text.as_bytes())
}

fn told(error: Error) -> String {
    match error {
        Error::Deserialization(ref e) => format!("{} {:?}", e, e),
        Error::IO(e) => e.to_string(),
        Error::LanguageMismatch { expected, found } => format!("{expected} {found}"),
        Error::Resource => String::new(),
    }
}

fn is_shared<T: Send + Sync + Clone + std::fmt::Debug>(_: &T) {}

#[test]
fn dictionaries_are_asked() {
    let word: Word<usize> = en_us().hyphenate("hyphenation");
    assert_eq!((word.text, &word.breaks[..]), ("hyphenation", &[2, 6, 7][..]));
    assert_eq!(word.clone(), word);
    let segments: Segments<'_, _> = word.iter().segments();
    assert_eq!(segments.size_hint(), (4, Some(4)));
    let mut marked: Hyphenating<'_, _> = word.iter();
    marked.mark_with("\u{ad}");
    assert_eq!(marked.collect::<String>(), "hy\u{ad}phen\u{ad}a\u{ad}tion");
    let text: String = ["hyphenation", " ", "present"].iter().flat_map(|w| en_us().hyphenate(w).into_iter()).collect();
    assert_eq!(text, "hy-phen-a-tion pres-ent");
    assert_eq!(number_of_breaks(en_us(), "hyphenation"), 3);
    assert_eq!(en_us().opportunities_within("hyphenation", (0, 6)), vec![2, 6]);
    assert_eq!(en_us().exception("present"), Some(vec![4]));
    assert_eq!(en_us().exception_within("present", (0, 3)), Some(vec![]));
    let values: Vec<u8> = en_us().score("hyphenation");
    assert_eq!(values.iter().filter(|&&v| Standard::denotes_opportunity(v)).count(), 3);
    assert_eq!(en_us().unbreakable_chars(), EnglishUS.minima());
    assert_eq!(en_us().boundaries("hyphenation"), Some((2, 8)));
    assert_eq!(soft_hyphen_indices("a\u{ad}b"), Some(vec![1]));
    is_shared(en_us());
}

#[test]
fn changes_are_lent() {
    let hu = hu();
    let word: Word<(usize, Option<&Subregion>)> = hu.hyphenate("asszony");
    let segments: SegmentsExt<'_, _> = word.into_iter().segments();
    assert_eq!(segments.collect::<Vec<Cow<'_, str>>>(), vec!["asz", "szony"]);
    let Subregion { left, right, ref substitution, breakpoint } = *first_change(&hu, "asszony").unwrap();
    assert_eq!((left, right, substitution.as_str(), breakpoint), (1, 2, "szsz", 2));
    assert_eq!(hu.exception("kilim"), Some(vec![(2, None)]));
    let scores: Vec<(u8, Option<&Subregion>)> = hu.score("asszony");
    assert_eq!(scores.into_iter().filter(|&v| Extended::denotes_opportunity(v)).count(), 1);
    assert_eq!(hu.opportunities_within("asszony", (0, 7)).len(), 1);
    is_shared(&hu);
}

#[test]
fn exceptions_are_changed() {
    let mut own = en_us().clone();
    let old: Option<Vec<usize>> = own.add_exception(String::from("present"), vec![3]);
    assert_eq!(old, Some(vec![4]));
    assert_eq!(own.remove_exception("present"), Some(vec![3]));
    assert_eq!(own.opportunities("present"), vec![]);
    assert_eq!(en_us().opportunities("present"), vec![4]);
    let mut hu = hu();
    let change = Subregion { left: 1, right: 2, substitution: "szsz".into(), breakpoint: 2 };
    let old: Option<Vec<(usize, Option<Subregion>)>> = hu.add_exception("kilim".into(), vec![(2, Some(change))]);
    assert_eq!(old, Some(vec![(2, None)]));
    assert_eq!(hu.hyphenate("kilim").into_iter().collect::<String>(), "ksz-szm");
}

#[test]
fn languages_and_errors_are_values() {
    assert_eq!([EnglishUS, Language::Hungarian].iter().map(|l| l.code()).collect::<HashSet<&'static str>>().len(), 2);
    assert_eq!([Turkish, Turkish, Thai].iter().collect::<BTreeSet<_>>().len(), 2);
    assert!(told(loads::<Standard>(Hungarian, ENGLISH).unwrap_err()).contains("EnglishUS"));
    assert!(told(loads::<Extended>(EnglishUS, ENGLISH).unwrap_err()).starts_with("line 1: "));
    let error: Box<dyn std::error::Error> = Box::new(Standard::from_path(EnglishUS, "/no/such/file").unwrap_err());
    assert!(error.source().is_some());
    let by_name: fn(Language) -> hyphenation::load::Result<Standard> = Standard::from_embedded;
    let _ = by_name(Language::from_code("x-no-such").unwrap()).map_err(told);
}
