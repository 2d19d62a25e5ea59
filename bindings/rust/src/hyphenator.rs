//! Words with their breaks, and what finds them.

/// The places of the soft hyphens of a word; none where it has none. A word that has some is broken only at them.
pub fn soft_hyphen_indices(word: &str) -> Option<Vec<usize>> {
    let places: Vec<usize> = word.match_indices('\u{ad}').map(|(place, _)| place).collect();
    Some(places).filter(|places| !places.is_empty())
}

/// A word with its breaks, whose places ascend.
#[derive(Clone, Debug, PartialEq, Eq, Hash)]
pub struct Word<'t, Break> {
    /// The word as written.
    pub text: &'t str,
    /// Its breaks.
    pub breaks: Vec<Break>,
}

/// A dictionary that finds the breaks of single words.
///
/// All places are numbers of bytes. Where memory is refused, the calls of [`Standard`](crate::Standard) and
/// [`Extended`](crate::extended::Extended) panic.
pub trait Hyphenator<'h> {
    /// A break that the dictionary finds in a word.
    type Opportunity;

    /// A break as it is listed for an exception.
    type Exact;

    /// A word with its breaks. Capitals are read as small letters.
    ///
    /// If the word has soft hyphens, these are its breaks. Else they are those that are listed for it, if it is an
    /// exception, or those of the patterns.
    fn hyphenate<'t>(&'h self, word: &'t str) -> Word<'t, Self::Opportunity>;

    /// The breaks of a word in small letters, within the minima. A soft hyphen is a letter here.
    fn opportunities(&'h self, lowercase_word: &str) -> Vec<Self::Opportunity> {
        known_or_found(self, lowercase_word)
    }

    /// The breaks of a word by the patterns, from the first of these places to the second one.
    fn opportunities_within(&'h self, lowercase_word: &str, bounds: (usize, usize)) -> Vec<Self::Opportunity>;

    /// The breaks that are listed for a word, within the minima, if it is an exception.
    fn exception(&'h self, lowercase_word: &str) -> Option<Vec<Self::Opportunity>> {
        self.boundaries(lowercase_word).and_then(|bounds| self.exception_within(lowercase_word, bounds))
    }

    /// The breaks that are listed for a word, from the first of these places to the second one, if it is an exception.
    fn exception_within(&'h self, lowercase_word: &str, bounds: (usize, usize)) -> Option<Vec<Self::Opportunity>>;

    /// Lists breaks for a word, in the place of those that its patterns allow. It returns those that were listed before, if
    /// any were.
    ///
    /// # Panics
    ///
    /// Where memory is refused, or where the breaks may not be listed: their places must ascend, and be with their ranges
    /// in the word, on boundaries of characters. The dictionary is then as it was.
    fn add_exception(&mut self, lowercase_word: String, ops: Vec<Self::Exact>) -> Option<Vec<Self::Exact>>;

    /// Removes a word from the exceptions, if it is one, and returns the breaks that were listed.
    ///
    /// # Panics
    ///
    /// Where memory is refused.
    fn remove_exception(&mut self, word: &str) -> Option<Vec<Self::Exact>>;

    /// The least numbers of characters before the first break of a word, and after its last one.
    fn unbreakable_chars(&self) -> (usize, usize);

    /// The first and the last place at which the minima let a word be broken; none if it has too few characters. The last
    /// one is before the word's last character at most.
    fn boundaries(&self, word: &str) -> Option<(usize, usize)> {
        let (left, right) = self.unbreakable_chars();
        let places: Vec<usize> = word.char_indices().map(|(place, _)| place).collect();
        let has_room = left < places.len() && left + right <= places.len();
        has_room.then(|| (places[left], places[places.len() - right.max(1)]))
    }
}

// Whether a word has neither a capital nor a soft hyphen. The breaks of such a word as it is written are its opportunities.
pub(crate) fn is_plain(word: &str) -> bool {
    !word.chars().any(|c| c.is_uppercase() || c == '\u{ad}')
}

// The breaks of a word within the minima: those that are listed for it, or else those of the patterns.
pub(crate) fn known_or_found<'h, H: Hyphenator<'h> + ?Sized>(dictionary: &'h H, word: &str) -> Vec<H::Opportunity> {
    match dictionary.boundaries(word) {
        None => Vec::new(),
        Some(bounds) => match dictionary.exception(word) {
            None => dictionary.opportunities_within(word, bounds),
            Some(known) => known,
        },
    }
}
