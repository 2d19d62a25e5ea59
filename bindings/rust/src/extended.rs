//! Dictionaries whose breaks may change the letters around them.

use crate::calls::{Raw, RawChange, RawNumbered, EXTENDED};
use crate::dictionary::{dictionary, Inner};
use crate::hyphenator::{is_plain, known_or_found, Hyphenator, Word};
use crate::score::Score;

/// The change that a break makes: a substitution for a range of the word, and where it is broken itself.
#[derive(Clone, Debug, Default, PartialEq, Eq, Hash)]
pub struct Subregion {
    /// How many bytes before the break the range begins.
    pub left: usize,
    /// How many bytes after the break the range ends.
    pub right: usize,
    /// The text that takes the place of the range.
    pub substitution: String,
    /// The number of bytes of the substitution before the break.
    pub breakpoint: usize,
}

/// A dictionary whose breaks may change the letters around them.
pub struct Extended(Inner<(usize, Option<Subregion>)>);

dictionary!(Extended, EXTENDED);

// A break that changes nothing has an empty range at its place, and no texts.
fn subregion(change: &RawChange, texts: &str) -> Option<Subregion> {
    if change.begin == change.end && texts.is_empty() {
        return None;
    }
    Some(Subregion {
        left: change.place - change.begin,
        right: change.end - change.place,
        substitution: texts.to_owned(),
        breakpoint: change.before,
    })
}

/// Numbers with their changes, whose texts are one after the other.
pub(crate) fn with_changes(numbered: &[RawNumbered], texts: &str) -> Vec<(usize, Option<Subregion>)> {
    let mut rest = texts;
    let changes = numbered.iter().map(|it| {
        let (own, after) = rest.split_at(it.length);
        rest = after;
        let substitution = own.to_owned();
        let change = Subregion { left: it.left, right: it.right, substitution, breakpoint: it.breakpoint };
        (it.number, (it.changed != 0).then_some(change))
    });
    changes.collect()
}

impl<'h> Hyphenator<'h> for Extended {
    type Opportunity = (usize, Option<&'h Subregion>);
    type Exact = (usize, Option<Subregion>);

    fn hyphenate<'t>(&'h self, word: &'t str) -> Word<'t, (usize, Option<&'h Subregion>)> {
        let (changes, texts) = self.0.ask(|raw| raw.changes(word));
        let mut rest = texts.as_str();
        let breaks = changes.iter().map(|change| {
            let (own, after) = rest.split_at(change.before + change.after);
            rest = after;
            (change.place, subregion(change, own).map(|it| self.0.keep(it)))
        });
        Word { text: word, breaks: breaks.collect() }
    }

    fn opportunities(&'h self, lowercase_word: &str) -> Vec<(usize, Option<&'h Subregion>)> {
        if is_plain(lowercase_word) {
            return self.hyphenate(lowercase_word).breaks;
        }
        known_or_found(self, lowercase_word)
    }

    fn opportunities_within(
        &'h self,
        lowercase_word: &str,
        bounds: (usize, usize),
    ) -> Vec<(usize, Option<&'h Subregion>)> {
        let scores = (1..).zip(self.score(lowercase_word)).filter(|(_, score)| Self::denotes_opportunity(*score));
        let breaks = scores.map(|(place, (_, change))| (place, change));
        breaks.filter(|(place, _)| bounds.0 <= *place && *place <= bounds.1).collect()
    }

    fn exception_within(
        &'h self,
        lowercase_word: &str,
        bounds: (usize, usize),
    ) -> Option<Vec<(usize, Option<&'h Subregion>)>> {
        let listed = self.0.listed(lowercase_word)?.into_iter();
        let within = listed.filter(|(place, _)| bounds.0 <= *place && *place <= bounds.1);
        Some(within.map(|(place, change)| (place, change.map(|it| self.0.keep(it)))).collect())
    }

    fn add_exception(
        &mut self,
        lowercase_word: String,
        ops: Vec<(usize, Option<Subregion>)>,
    ) -> Option<Vec<(usize, Option<Subregion>)>> {
        self.0.list(lowercase_word, ops)
    }

    fn remove_exception(&mut self, word: &str) -> Option<Vec<(usize, Option<Subregion>)>> {
        self.0.unlist(word)
    }

    fn unbreakable_chars(&self) -> (usize, usize) {
        self.0.ask(|raw| Ok(Raw::minima(raw)))
    }
}

impl<'d> Score<'d> for Extended {
    type Value = (u8, Option<&'d Subregion>);

    fn score(&'d self, word: &str) -> Vec<(u8, Option<&'d Subregion>)> {
        let (numbered, texts) = self.0.ask(|raw| raw.scores(word));
        let scores = with_changes(&numbered, &texts).into_iter();
        scores.map(|(value, change)| (value as u8, change.map(|it| self.0.keep(it)))).collect()
    }

    fn denotes_opportunity((value, _): (u8, Option<&'d Subregion>)) -> bool {
        value & 1 == 1
    }
}
