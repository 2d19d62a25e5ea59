//! Loading dictionaries.

use crate::calls::{self, Failure};
use crate::language::Language;
use std::fs::File;
use std::path::Path;
use std::{error, fmt, io, result};

/// A result of loading.
pub type Result<T> = result::Result<T, Error>;

/// The first fault of a dictionary text, of the files of patterns of which a dictionary is to be made, or of a list of
/// exceptions.
#[derive(Clone, Copy, Debug, PartialEq, Eq)]
pub struct Fault {
    // 1 for a file or a list of exceptions
    file: usize,
    // from 1; 0 for files without minima
    line: usize,
    cause: &'static str,
}

impl Fault {
    /// The number of the faulty line, from 1; none where the files say no minima.
    pub fn line(&self) -> Option<usize> {
        Some(self.line).filter(|line| *line > 0)
    }

    /// The first test that the line fails, such as `bad token`.
    pub fn cause(&self) -> &'static str {
        self.cause
    }

    /// Whether the line is one of the file or the list of exceptions.
    pub fn is_in_exceptions(&self) -> bool {
        self.file == 1
    }
}

impl fmt::Display for Fault {
    fn fmt(&self, f: &mut fmt::Formatter<'_>) -> fmt::Result {
        if self.is_in_exceptions() {
            f.write_str("exceptions, ")?;
        }
        if let Some(line) = self.line() {
            write!(f, "line {line}: ")?;
        }
        f.write_str(self.cause)
    }
}

impl error::Error for Fault {}

/// Why a dictionary is not loaded.
#[derive(Debug)]
pub enum Error {
    /// The text, or a file of patterns, is faulty.
    Deserialization(Fault),
    /// The file or the reader can't be read, or memory was refused.
    IO(io::Error),
    /// The text is of another language.
    LanguageMismatch {
        /// The language that was asked for.
        expected: Language,
        /// The language of the text.
        found: Language,
    },
    /// No folder has a dictionary of the language.
    Resource,
}

impl fmt::Display for Error {
    fn fmt(&self, f: &mut fmt::Formatter<'_>) -> fmt::Result {
        match self {
            Error::Deserialization(fault) => fault.fmt(f),
            Error::IO(error) => error.fmt(f),
            Error::LanguageMismatch { expected, found } => write!(
                f,
                "Language mismatch: attempted to load a dictionary for `{expected}`, but found\na dictionary for `{found}` instead."
            ),
            Error::Resource => f.write_str("no folder has a dictionary of the language"),
        }
    }
}

impl error::Error for Error {
    fn source(&self) -> Option<&(dyn error::Error + 'static)> {
        match self {
            Error::Deserialization(fault) => Some(fault),
            Error::IO(error) => Some(error),
            _ => None,
        }
    }
}

impl From<io::Error> for Error {
    fn from(error: io::Error) -> Error {
        Error::IO(error)
    }
}

impl From<Failure> for Error {
    fn from(failure: Failure) -> Error {
        match failure {
            Failure::Refused { file, line, cause } => {
                Error::Deserialization(Fault { file, line, cause: calls::cause_message(cause) })
            }
            Failure::NoMinima => Error::Deserialization(Fault { file: 0, line: 0, cause: calls::no_minima_message() }),
            Failure::Memory => Error::IO(io::Error::new(io::ErrorKind::OutOfMemory, calls::memory_message())),
            Failure::NoException => unreachable!("a call that loads asks for no exception"),
        }
    }
}

impl Error {
    // The error of a list of exceptions.
    pub(crate) fn in_list(failure: Failure) -> Error {
        match failure {
            Failure::Refused { line, cause, .. } => Failure::Refused { file: 1, line, cause }.into(),
            other => other.into(),
        }
    }
}

/// Loading a kind of dictionary.
pub trait Load: Sized {
    /// The dictionary of a language, from the text in a file.
    ///
    /// # Errors
    ///
    /// [`Error::IO`] where the file can't be read or memory is refused, [`Error::Deserialization`] where the text is faulty,
    /// and [`Error::LanguageMismatch`] where it is of another language.
    fn from_path<P: AsRef<Path>>(lang: Language, path: P) -> Result<Self> {
        Self::from_reader(lang, &mut File::open(path)?)
    }

    /// The dictionary of a language, from the text that a reader gives.
    ///
    /// # Errors
    ///
    /// [`Error::IO`] where the reader can't be read or memory is refused, [`Error::Deserialization`] where the text is
    /// faulty, and [`Error::LanguageMismatch`] where it is of another language.
    fn from_reader<R: io::Read>(lang: Language, reader: &mut R) -> Result<Self>;

    /// The dictionary of whatever language, from the text that a reader gives.
    ///
    /// # Errors
    ///
    /// [`Error::IO`] where the reader can't be read or memory is refused, and [`Error::Deserialization`] where the text is
    /// faulty.
    fn any_from_reader<R: io::Read>(reader: &mut R) -> Result<Self>;

    /// The dictionary of a language that the machine has. None is embedded in the program.
    ///
    /// It is the first of this kind and language on the paths at which
    /// [`dictionary_path`](crate::dictionary_path) looks for the language, with the exceptions of the list at
    /// [`exceptions_path`](crate::exceptions_path), if there is one. A type that does not say where its dictionaries
    /// are has none.
    ///
    /// # Errors
    ///
    /// [`Error::Resource`] where there is none, [`Error::Deserialization`] where a file on the way to it is faulty, and
    /// [`Error::IO`] where one can't be read or memory is refused.
    ///
    /// # Panics
    ///
    /// Where memory is refused for the paths.
    fn from_embedded(lang: Language) -> Result<Self> {
        let _ = lang;
        Err(Error::Resource)
    }
}
