//! The search for the dictionary of a language, and for its list of exceptions.

use crate::calls::{self, Sought};
use crate::dictionary::done;
use std::env;
use std::path::{Path, PathBuf};

// The value of a variable of the environment; empty if it is missing, or not UTF-8. `HYPHENATION_PATH` is refused then.
fn value(name: &str) -> String {
    match env::var(name) {
        Err(env::VarError::NotUnicode(_)) if name == "HYPHENATION_PATH" => panic!("{name}: not UTF-8"),
        value => value.unwrap_or_default(),
    }
}

/// The paths at which the dictionary of a language is looked for, or its list of exceptions, in their order.
pub(crate) fn paths_of(sought: Sought, tag: &str) -> Vec<PathBuf> {
    let [path, data_home, home] = ["HYPHENATION_PATH", "XDG_DATA_HOME", "HOME"].map(value);
    let paths = done(calls::paths(sought, tag, &path, &data_home, &home));
    paths.split_terminator('\0').map(|path| Path::new(path).to_owned()).collect()
}

/// Returns the path of the dictionary of a language, or `None` if there is none.
///
/// It is searched in the folders that `HYPHENATION_PATH` names, then in `hyphenation` in `XDG_DATA_HOME`, or else
/// `.local/share/hyphenation` in `HOME`, and then in `/usr/local/share/hyphenation` and `/usr/share/hyphenation`: by the
/// whole tag, as `de-ch` for `de_CH`, and then without its last part, as `de` and `de-1996`. A standard dictionary
/// (`.txt`) comes before an extended one (`.extended.txt`).
///
/// ```
/// assert_eq!(hyphenation::dictionary_path("../x"), None);
/// ```
///
/// # Panics
///
/// Where memory is refused, or `HYPHENATION_PATH` is not UTF-8.
pub fn dictionary_path(language: &str) -> Option<PathBuf> {
    paths_of(Sought::Dictionary, language).into_iter().find(|path| path.is_file())
}

/// Returns the path of the list of exceptions of a language, or `None` if there is none.
///
/// It is a file of words of the user's own, such as `de.exceptions`, which `add_exceptions` takes. It is searched in the
/// folders of [`dictionary_path`], by the same names; the first one is taken.
///
/// ```
/// assert_eq!(hyphenation::exceptions_path("../x"), None);
/// ```
///
/// # Panics
///
/// Where memory is refused.
pub fn exceptions_path(language: &str) -> Option<PathBuf> {
    paths_of(Sought::Exceptions, language).into_iter().find(|path| path.is_file())
}
