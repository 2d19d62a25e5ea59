//! Dictionaries whose breaks change nothing.

use crate::calls::{Raw, STANDARD};
use crate::dictionary::{dictionary, Inner};
use crate::hyphenator::{is_plain, known_or_found, Hyphenator, Word};
use crate::score::Score;

/// A dictionary whose breaks change nothing.
pub struct Standard(Inner<usize>);

dictionary!(Standard, STANDARD);

impl Standard {
    /// The lines of a text, of at most that number of characters, if the text can be divided so.
    ///
    /// Each paragraph, up to a line feed, is filled by itself; an empty one is an empty line.
    ///
    /// # Panics
    ///
    /// Where memory is refused.
    pub fn fill(&self, text: &str, columns: usize) -> Vec<String> {
        let mut lines = Vec::new();
        for paragraph in text.split('\n') {
            let page = self.0.ask(|raw| raw.lines(paragraph, columns));
            lines.extend(page.split_terminator('\n').map(str::to_owned));
            if paragraph.is_empty() {
                lines.push(String::new());
            }
        }
        lines
    }
}

impl<'h> Hyphenator<'h> for Standard {
    type Opportunity = usize;
    type Exact = usize;

    fn hyphenate<'t>(&'h self, word: &'t str) -> Word<'t, usize> {
        Word { text: word, breaks: self.0.ask(|raw| raw.breaks(word)) }
    }

    fn opportunities(&'h self, lowercase_word: &str) -> Vec<usize> {
        if is_plain(lowercase_word) {
            return self.hyphenate(lowercase_word).breaks;
        }
        known_or_found(self, lowercase_word)
    }

    fn opportunities_within(&'h self, lowercase_word: &str, bounds: (usize, usize)) -> Vec<usize> {
        let values = self.score(lowercase_word);
        let places = (1..).zip(values).filter(|(_, value)| Self::denotes_opportunity(*value)).map(|(place, _)| place);
        places.filter(|place| bounds.0 <= *place && *place <= bounds.1).collect()
    }

    fn exception_within(&'h self, lowercase_word: &str, bounds: (usize, usize)) -> Option<Vec<usize>> {
        let listed = self.0.listed(lowercase_word)?.into_iter();
        Some(listed.filter(|place| bounds.0 <= *place && *place <= bounds.1).collect())
    }

    fn add_exception(&mut self, lowercase_word: String, ops: Vec<usize>) -> Option<Vec<usize>> {
        self.0.list(lowercase_word, ops)
    }

    fn remove_exception(&mut self, word: &str) -> Option<Vec<usize>> {
        self.0.unlist(word)
    }

    fn unbreakable_chars(&self) -> (usize, usize) {
        self.0.ask(|raw| Ok(Raw::minima(raw)))
    }
}

impl<'d> Score<'d> for Standard {
    type Value = u8;

    fn score(&'d self, word: &str) -> Vec<u8> {
        self.0.ask(|raw| raw.values(word))
    }

    fn denotes_opportunity(value: u8) -> bool {
        value & 1 == 1
    }
}
