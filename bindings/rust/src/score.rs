//! The values of the places of words, by the patterns of a dictionary.
//!
//! The patterns that occur in a word have values at some of its places, and of several at one place the greatest counts. An
//! odd one allows a break. In British English `firkin` has 0, 2, 5, 2 and 0, so it is broken as `fir-kin`.

/// A dictionary that gives a value to each place of a word.
pub trait Score<'d> {
    /// The value of a place; in an extended dictionary with the change that it carries.
    type Value;

    /// The values of a word's places, from place 1 on, only by the patterns. A place is a number of bytes.
    ///
    /// Neither exceptions nor minima are looked at, and capitals are not read as small letters.
    ///
    /// # Panics
    ///
    /// Where memory is refused.
    fn score(&'d self, word: &str) -> Vec<Self::Value>;

    /// Whether a value allows a break: it is odd.
    fn denotes_opportunity(value: Self::Value) -> bool;
}
