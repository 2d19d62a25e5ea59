//! Dictionaries of both kinds: what they have in common, written once.

use crate::calls::{self, Failure, Raw, Sought, PLAIN, TEX};
use crate::extended::Subregion;
use crate::known::Known;
use crate::language::Language;
use crate::load::{Error, Result};
use crate::search;
use crate::shared::Shared;
use crate::text::{escaped, Listed};
use std::marker::PhantomData;
use std::sync::OnceLock;
use std::{fs, io, result};

/// A dictionary whose exceptions list breaks of this type.
pub(crate) struct Inner<E> {
    shared: Shared,
    language: Language,
    // The changes that breaks refer to, up to the next edit.
    known: OnceLock<Known>,
    listed: PhantomData<fn() -> E>,
}

/// The result of a call that fails only if memory was refused. It panics then, as Rust's own lists end the program.
pub(crate) fn done<T>(result: result::Result<T, Failure>) -> T {
    match result {
        Ok(value) => value,
        Err(Failure::Memory) => panic!("{}", calls::memory_message()),
        Err(failure) => unreachable!("{failure:?}"),
    }
}

// A minimum as the library takes it: a number above 255 leaves it to the file.
fn number(minimum: Option<u8>) -> u32 {
    minimum.map_or(256, u32::from)
}

impl<E: Listed> Inner<E> {
    fn of(raw: Raw, language: Language) -> Inner<E> {
        Inner { shared: Shared::of(raw), language, known: OnceLock::new(), listed: PhantomData }
    }

    // ---- Loading.

    pub(crate) fn of_text(kind: u32, text: &[u8]) -> Result<Inner<E>> {
        let mut raw = calls::load(kind, text)?;
        let code = raw.language()?;
        Ok(Inner::of(raw, Language::from_code(&code).expect("a dictionary has a language")))
    }

    pub(crate) fn of_any_reader<R: io::Read>(kind: u32, reader: &mut R) -> Result<Inner<E>> {
        let mut text = Vec::new();
        reader.read_to_end(&mut text)?;
        Inner::of_text(kind, &text)
    }

    pub(crate) fn of_reader<R: io::Read>(kind: u32, expected: Language, reader: &mut R) -> Result<Inner<E>> {
        let inner = Inner::of_any_reader(kind, reader)?;
        match inner.language {
            found if found != expected => Err(Error::LanguageMismatch { expected, found }),
            _ => Ok(inner),
        }
    }

    // The first file on the paths of the language that has a dictionary of this kind and language, with the exceptions of the
    // user's list.
    pub(crate) fn of_folders(kind: u32, language: Language) -> Result<Inner<E>> {
        for path in search::paths_of(Sought::Dictionary, language.code()).iter().filter(|path| path.is_file()) {
            let text = fs::read(path)?;
            if calls::kind_of(&text) != kind {
                continue;
            }
            let mut inner = Inner::of_text(kind, &text)?;
            if inner.language == language {
                if let Some(list) = search::exceptions_path(language.code()) {
                    inner.add_exceptions(&fs::read(list)?)?;
                }
                return Ok(inner);
            }
        }
        Err(Error::Resource)
    }

    pub(crate) fn of_dic(kind: u32, lang: Language, minima: (Option<u8>, Option<u8>), dic: &[u8]) -> Result<Inner<E>> {
        let raw = calls::load_dic(kind, lang.code(), (number(minima.0), number(minima.1)), dic)?;
        Ok(Inner::of(raw, lang))
    }

    pub(crate) fn of_tex(kind: u32, lang: Language, minima: (Option<u8>, Option<u8>), tex: &[u8]) -> Result<Inner<E>> {
        let minima = (number(minima.0), number(minima.1));
        let raw = calls::load_patterns((kind, TEX), lang.code(), minima, tex, b"")?;
        Ok(Inner::of(raw, lang))
    }

    pub(crate) fn of_patterns(
        kind: u32,
        lang: Language,
        minima: (u8, u8),
        patterns: &[u8],
        exceptions: &[u8],
    ) -> Result<Inner<E>> {
        let minima = (minima.0.into(), minima.1.into());
        let raw = calls::load_patterns((kind, PLAIN), lang.code(), minima, patterns, exceptions)?;
        Ok(Inner::of(raw, lang))
    }

    pub(crate) fn another(&self) -> Inner<E> {
        Inner::of(done(self.shared.another()), self.language)
    }

    // ---- Asking.

    pub(crate) fn language(&self) -> Language {
        self.language
    }

    pub(crate) fn ask<T>(&self, ask: impl FnOnce(&mut Raw) -> result::Result<T, Failure>) -> T {
        done(self.shared.ask(ask))
    }

    pub(crate) fn text(&self) -> String {
        self.ask(Raw::canonical)
    }

    pub(crate) fn breaks_of_words(&self, words: &[&str]) -> Vec<Vec<usize>> {
        let (places, ends) = self.ask(|raw| raw.breaks_of_words(words));
        let mut rest = places.as_slice();
        let mut begin = 0;
        ends.iter()
            .map(|end| {
                let (word, after) = rest.split_at(end - begin);
                (rest, begin) = (after, *end);
                word.to_vec()
            })
            .collect()
    }

    /// The change, to which the breaks that it is handed to may refer.
    pub(crate) fn keep(&self, subregion: Subregion) -> &Subregion {
        self.known.get_or_init(Known::new).keep(subregion)
    }

    // ---- Exceptions.

    /// The breaks that are listed for a word, if it is an exception.
    pub(crate) fn listed(&self, word: &str) -> Option<Vec<E>> {
        let (numbered, texts) = self.ask(|raw| raw.exception(word))?;
        Some(E::of_numbered(&numbered, &texts))
    }

    // Does an edit, and returns whether it is good.
    fn edit(&mut self, edit: &str) -> bool {
        match self.shared.change(|raw| raw.edit(edit)) {
            Err(Failure::Refused { .. }) => return false,
            result => done(result),
        }
        // No break refers to these any more.
        self.known = OnceLock::new();
        true
    }

    /// Adds the exceptions of a list.
    pub(crate) fn add_exceptions(&mut self, text: &[u8]) -> Result<()> {
        self.shared.change(|raw| raw.add_exceptions(text)).map_err(Error::in_list)?;
        // No break refers to these any more.
        self.known = OnceLock::new();
        Ok(())
    }

    /// Raises the minima to at least these.
    pub(crate) fn raise_minima(&mut self, left: u8, right: u8) {
        done(self.shared.change(|raw| raw.raise_minima(left, right)));
        // No break refers to these any more.
        self.known = OnceLock::new();
    }

    /// Lists breaks for a word, and returns those that were listed.
    pub(crate) fn list(&mut self, word: String, breaks: Vec<E>) -> Option<Vec<E>> {
        let tokens: Vec<String> = std::iter::once(escaped(&word)).chain(breaks.iter().map(E::to_token)).collect();
        let before = self.listed(&word);
        if !self.edit(&format!("+{}", tokens.join(" "))) {
            panic!("these breaks may not be listed for {word:?}: {}", tokens[1..].join(" "));
        }
        before
    }

    /// Removes a word from the exceptions, and returns the breaks that were listed.
    pub(crate) fn unlist(&mut self, word: &str) -> Option<Vec<E>> {
        let before = self.listed(word)?;
        self.edit(&format!("-{}", escaped(word))).then_some(before)
    }
}

/// The methods of both kinds: of the type, and the number of its kind.
macro_rules! dictionary {
    ($name:ident, $kind:expr) => {
        impl $name {
            /// Makes a dictionary of a `.dic` of LibreOffice, with these minima, or else those of the file, or 2.
            ///
            /// # Errors
            ///
            /// [`Error::Deserialization`](crate::load::Error::Deserialization) with the first fault of the file, and
            /// [`Error::IO`](crate::load::Error::IO) where memory is refused.
            pub fn from_dic(
                lang: $crate::Language,
                minima: (Option<u8>, Option<u8>),
                dic: &[u8],
            ) -> $crate::load::Result<Self> {
                $crate::dictionary::Inner::of_dic($kind, lang, minima, dic).map($name)
            }

            /// Makes a dictionary of a TeX file of patterns, with these minima, or else those in the head of the file.
            ///
            /// # Errors
            ///
            /// [`Error::Deserialization`](crate::load::Error::Deserialization) with the first fault of the file, or where
            /// no minima are there, and [`Error::IO`](crate::load::Error::IO) where memory is refused.
            pub fn from_tex(
                lang: $crate::Language,
                minima: (Option<u8>, Option<u8>),
                tex: &[u8],
            ) -> $crate::load::Result<Self> {
                $crate::dictionary::Inner::of_tex($kind, lang, minima, tex).map($name)
            }

            /// Makes a dictionary of a plain file of patterns, and of a plain file of exceptions, which may be empty.
            ///
            /// # Errors
            ///
            /// [`Error::Deserialization`](crate::load::Error::Deserialization) with the first fault of the files, and
            /// [`Error::IO`](crate::load::Error::IO) where memory is refused.
            pub fn from_patterns(
                lang: $crate::Language,
                minima: (u8, u8),
                patterns: &[u8],
                exceptions: &[u8],
            ) -> $crate::load::Result<Self> {
                $crate::dictionary::Inner::of_patterns($kind, lang, minima, patterns, exceptions).map($name)
            }

            /// Adds the exceptions of a list: one word a line, with hyphens where it may break, as `Stau-becken`.
            ///
            /// A word without a hyphen is never broken. A comment begins with `#` or `%`. A group `\hyphenation{..}` of TeX's
            /// has words between white space. Words are read in small letters. They take the place of what was listed for
            /// them. Clones stay as they are.
            ///
            /// # Errors
            ///
            /// [`Error::Deserialization`](crate::load::Error::Deserialization) with the first line that is refused, and
            /// [`Error::IO`](crate::load::Error::IO) where memory is refused. With either nothing is changed.
            pub fn add_exceptions(&mut self, list: &[u8]) -> $crate::load::Result<()> {
                self.0.add_exceptions(list)
            }

            /// Raises the minima to at least these numbers of characters: before the first break of a word, and after its last
            /// one. Greater ones stay.
            ///
            /// Soft hyphens of a word are its breaks, whatever the minima are. Clones stay as they are.
            ///
            /// ```
            /// use hyphenation::{Hyphenator, Load, Standard};
            ///
            /// let mut text = &b"hyphenation 1 standard\nlanguage en-us\nminima 2 3\ne hyphenation 2 6 7\n"[..];
            /// let mut english = Standard::any_from_reader(&mut text)?;
            /// english.raise_minima(4, 2);
            /// assert_eq!(english.unbreakable_chars(), (4, 3));
            /// assert_eq!(english.hyphenate_text("Hyphenation", "-"), "Hyphen-a-tion");
            /// # Ok::<(), hyphenation::load::Error>(())
            /// ```
            ///
            /// # Panics
            ///
            /// Where memory is refused. The dictionary is then as it was.
            pub fn raise_minima(&mut self, left: u8, right: u8) {
                self.0.raise_minima(left, right);
            }

            /// The language whose words it breaks.
            pub fn language(&self) -> $crate::Language {
                self.0.language()
            }

            /// The places of a word's breaks, as its NFC (Unicode's composed form) is broken, without the changes that breaks may
            /// make.
            ///
            /// Dictionaries know a letter with an accent as one character. A word in NFC has the places of its own breaks. Another
            /// word is broken at the places that have the same NFC before them and after them as a break of its NFC, so none is
            /// before a mark that NFC joins with its letter. A break is left out where there is no such place, or where it changes
            /// letters. The places are bytes of the word as it is given.
            ///
            /// ```
            /// use hyphenation::{Load, Standard};
            ///
            /// let mut text = "hyphenation 1 standard\nlanguage de\nminima 2 2\np ü1l\n".as_bytes();
            /// let german = Standard::any_from_reader(&mut text)?;
            /// assert_eq!(german.composed_breaks("Schüler"), [5]);
            /// assert_eq!(german.composed_breaks("Schu\u{308}ler"), [6]);
            /// # Ok::<(), hyphenation::load::Error>(())
            /// ```
            ///
            /// # Panics
            ///
            /// Where memory is refused.
            pub fn composed_breaks(&self, word: &str) -> Vec<usize> {
                self.0.ask(|raw| raw.composed_breaks(word))
            }

            /// The places of the breaks of each of the words, in one call, without the changes that breaks may make.
            ///
            /// # Panics
            ///
            /// Where memory is refused.
            pub fn breaks_of_words(&self, words: &[&str]) -> Vec<Vec<usize>> {
                self.0.breaks_of_words(words)
            }

            /// A text with a mark at each break of its words.
            ///
            /// # Panics
            ///
            /// Where memory is refused.
            pub fn hyphenate_text(&self, text: &str, mark: &str) -> String {
                self.0.ask(|raw| raw.marked(text, mark))
            }

            /// The dictionary as its canonical text, which [`Load`](crate::Load) reads.
            ///
            /// # Panics
            ///
            /// Where memory is refused.
            pub fn to_text(&self) -> String {
                self.0.text()
            }
        }

        impl $crate::Load for $name {
            fn from_reader<R: std::io::Read>(lang: $crate::Language, reader: &mut R) -> $crate::load::Result<Self> {
                $crate::dictionary::Inner::of_reader($kind, lang, reader).map($name)
            }

            fn any_from_reader<R: std::io::Read>(reader: &mut R) -> $crate::load::Result<Self> {
                $crate::dictionary::Inner::of_any_reader($kind, reader).map($name)
            }

            fn from_embedded(lang: $crate::Language) -> $crate::load::Result<Self> {
                $crate::dictionary::Inner::of_folders($kind, lang).map($name)
            }
        }

        /// A clone is the same dictionary, of which nothing is copied. An edit of either leaves the other as it is.
        ///
        /// # Panics
        ///
        /// Where memory is refused.
        impl Clone for $name {
            fn clone(&self) -> $name {
                $name(self.0.another())
            }
        }

        impl std::fmt::Debug for $name {
            fn fmt(&self, f: &mut std::fmt::Formatter<'_>) -> std::fmt::Result {
                f.debug_struct(stringify!($name)).field("language", &self.language()).finish_non_exhaustive()
            }
        }
    };
}

pub(crate) use dictionary;
