//! The segments of words: the texts between their breaks, with marks or without.

use crate::extended::Subregion;
use crate::hyphenator::Word;
use std::borrow::Cow;
use std::iter::Cloned;
use std::{slice, vec};

/// The segments of a word, each but the last with a mark after it.
#[derive(Clone, Debug)]
pub struct Hyphenating<'m, I> {
    inner: I,
    mark: &'m str,
}

impl<'m, I: Iterator> Hyphenating<'m, I> {
    /// The segments without marks.
    pub fn segments(self) -> I {
        self.inner
    }

    /// Sets the mark, which is `-` at first.
    pub fn mark_with(&mut self, mark: &'m str) {
        self.mark = mark;
    }

    /// Segments with marks.
    pub fn new(inner: I) -> Self {
        Hyphenating { inner, mark: "-" }
    }
}

impl<I> Iterator for Hyphenating<'_, I>
where
    I: ExactSizeIterator,
    I::Item: AsRef<str>,
{
    type Item = String;

    fn next(&mut self) -> Option<String> {
        let segment = self.inner.next()?;
        let mark = if self.inner.len() > 0 { self.mark } else { "" };
        Some([segment.as_ref(), mark].concat())
    }

    fn size_hint(&self) -> (usize, Option<usize>) {
        self.inner.size_hint()
    }
}

impl<I> ExactSizeIterator for Hyphenating<'_, I>
where
    I: ExactSizeIterator,
    I::Item: AsRef<str>,
{
}

/// A word whose segments are asked for without giving it away.
pub trait Iter<'t> {
    /// The iterator over its segments.
    type Iter;

    /// The segments, with marks.
    fn iter(&'t self) -> Hyphenating<'t, Self::Iter>;
}

impl<'t> Iter<'t> for Word<'t, usize> {
    type Iter = Segments<'t, Cloned<slice::Iter<'t, usize>>>;

    fn iter(&'t self) -> Hyphenating<'t, Self::Iter> {
        Hyphenating::new(Segments::new(self.text, self.breaks.iter().cloned()))
    }
}

impl<'t> Iter<'t> for Word<'t, (usize, Option<&'t Subregion>)> {
    type Iter = SegmentsExt<'t, std::iter::Copied<slice::Iter<'t, (usize, Option<&'t Subregion>)>>>;

    fn iter(&'t self) -> Hyphenating<'t, Self::Iter> {
        Hyphenating::new(SegmentsExt::new(self.text, self.breaks.iter().copied()))
    }
}

impl<'t> IntoIterator for Word<'t, usize> {
    type Item = String;
    type IntoIter = Hyphenating<'t, Segments<'t, vec::IntoIter<usize>>>;

    fn into_iter(self) -> Self::IntoIter {
        Hyphenating::new(Segments::new(self.text, self.breaks.into_iter()))
    }
}

impl<'t> IntoIterator for Word<'t, (usize, Option<&'t Subregion>)> {
    type Item = String;
    type IntoIter = Hyphenating<'t, SegmentsExt<'t, vec::IntoIter<(usize, Option<&'t Subregion>)>>>;

    fn into_iter(self) -> Self::IntoIter {
        Hyphenating::new(SegmentsExt::new(self.text, self.breaks.into_iter()))
    }
}

/// The segments between breaks that change nothing.
#[derive(Clone, Debug)]
pub struct Segments<'t, I> {
    text: &'t str,
    breaks: I,
    // Where the next segment begins; none after the last one.
    start: Option<usize>,
}

impl<'t, I> Segments<'t, I> {
    /// The segments of a text between breaks, whose places ascend.
    pub fn new(text: &'t str, breaks: I) -> Self {
        Segments { text, breaks, start: Some(0) }
    }
}

impl<'t, I: Iterator<Item = usize>> Iterator for Segments<'t, I> {
    type Item = &'t str;

    fn next(&mut self) -> Option<&'t str> {
        let start = self.start?;
        self.start = self.breaks.next();
        Some(&self.text[start..self.start.unwrap_or(self.text.len())])
    }

    fn size_hint(&self) -> (usize, Option<usize>) {
        let (least, most) = self.breaks.size_hint();
        let last = usize::from(self.start.is_some());
        (least + last, most.map(|n| n + last))
    }
}

impl<I: ExactSizeIterator<Item = usize>> ExactSizeIterator for Segments<'_, I> {}

/// The segments between breaks that may change the letters around them.
#[derive(Clone, Debug)]
pub struct SegmentsExt<'t, I> {
    text: &'t str,
    breaks: I,
    // Where the next segment begins, and the text before that; none after the last one.
    start: Option<(usize, &'t str)>,
}

impl<'t, I> SegmentsExt<'t, I> {
    /// The segments of a text between breaks, whose places ascend, and whose ranges do not overlap.
    pub fn new(text: &'t str, breaks: I) -> Self {
        SegmentsExt { text, breaks, start: Some((0, "")) }
    }
}

impl<'t, I: Iterator<Item = (usize, Option<&'t Subregion>)>> Iterator for SegmentsExt<'t, I> {
    type Item = Cow<'t, str>;

    fn next(&mut self) -> Option<Cow<'t, str>> {
        let (start, before) = self.start.take()?;
        let (end, after) = match self.breaks.next() {
            None => (self.text.len(), ""),
            Some((place, None)) => {
                self.start = Some((place, ""));
                (place, "")
            }
            Some((place, Some(change))) => {
                let (first, second) = change.substitution.split_at(change.breakpoint);
                self.start = Some((place + change.right, second));
                (place - change.left, first)
            }
        };
        let between = &self.text[start..end];
        if before.is_empty() && after.is_empty() {
            return Some(Cow::Borrowed(between));
        }
        Some(Cow::Owned([before, between, after].concat()))
    }

    fn size_hint(&self) -> (usize, Option<usize>) {
        let (least, most) = self.breaks.size_hint();
        let last = usize::from(self.start.is_some());
        (least + last, most.map(|n| n + last))
    }
}

impl<'t, I: ExactSizeIterator<Item = (usize, Option<&'t Subregion>)>> ExactSizeIterator for SegmentsExt<'t, I> {}
