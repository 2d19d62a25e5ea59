//! Edits of exceptions, as the tokens of a dictionary text, and what is listed.

use crate::calls::RawNumbered;
use crate::extended::{with_changes, Subregion};

/// A break as it is listed for an exception.
pub trait Listed: Clone {
    /// The breaks of numbers with changes, and of the texts of these, one after the other.
    fn of_numbered(numbered: &[RawNumbered], texts: &str) -> Vec<Self>;

    /// The token of the break, such as `2` or `2,1,2,2,szsz`.
    fn to_token(&self) -> String;
}

impl Listed for usize {
    fn of_numbered(numbered: &[RawNumbered], _: &str) -> Vec<usize> {
        numbered.iter().map(|it| it.number).collect()
    }

    fn to_token(&self) -> String {
        self.to_string()
    }
}

impl Listed for (usize, Option<Subregion>) {
    fn of_numbered(numbered: &[RawNumbered], texts: &str) -> Vec<Self> {
        with_changes(numbered, texts)
    }

    fn to_token(&self) -> String {
        match &self.1 {
            None => self.0.to_string(),
            Some(s) => format!("{},{},{},{},{}", self.0, s.left, s.right, s.breakpoint, escaped(&s.substitution)),
        }
    }
}

/// The token of a text.
pub fn escaped(text: &str) -> String {
    if text.is_empty() {
        return "\\e".to_owned();
    }
    let mut token = String::with_capacity(text.len());
    for c in text.chars() {
        match c {
            '\\' => token.push_str("\\\\"),
            ' ' => token.push_str("\\s"),
            '\n' => token.push_str("\\n"),
            '\r' => token.push_str("\\r"),
            c => token.push(c),
        }
    }
    token
}
