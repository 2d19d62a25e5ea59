//! Languages.

use std::collections::BTreeSet;
use std::fmt;
use std::sync::{Mutex, PoisonError};

/// A language that no name is given to here, by its code.
#[derive(Clone, Copy, Debug, PartialEq, Eq, PartialOrd, Ord, Hash)]
pub struct Code(&'static str);

macro_rules! languages {
    ($($name:ident $code:literal $left:literal $right:literal,)*) => {
        /// A language whose words are broken.
        #[derive(Clone, Copy, Debug, PartialEq, Eq, PartialOrd, Ord, Hash)]
        pub enum Language {
            $(#[doc = concat!("`", $code, "`")] $name,)*
            /// Another one, by its code.
            Other(Code),
        }

        impl Language {
            /// The languages that have a name.
            pub const NAMED: &'static [Language] = &[$(Language::$name,)*];

            /// The usual least numbers of characters before the first break of a word, and after its last one.
            ///
            /// They are those of the patterns of TeX. Those of a dictionary may be others:
            /// [`unbreakable_chars`](crate::Hyphenator::unbreakable_chars) returns them. A language without a name has 2
            /// and 3, as in TeX.
            pub fn minima(&self) -> (usize, usize) {
                match self {
                    $(Language::$name => ($left, $right),)*
                    Language::Other(_) => (2, 3),
                }
            }

            /// The code of the language, such as `en-us`.
            pub fn code(&self) -> &'static str {
                match self {
                    $(Language::$name => $code,)*
                    Language::Other(code) => code.0,
                }
            }

            /// The language of a code; none if the text is no code, which is 1 to 32 of a-z, 0-9 and -.
            ///
            /// A code that has no name here is kept up to the end of the program.
            pub fn from_code(code: &str) -> Option<Language> {
                match code {
                    $($code => Some(Language::$name),)*
                    _ => other(code),
                }
            }
        }
    };
}

fn other(code: &str) -> Option<Language> {
    static CODES: Mutex<BTreeSet<&str>> = Mutex::new(BTreeSet::new());
    let good = |b: u8| b.is_ascii_lowercase() || b.is_ascii_digit() || b == b'-';
    if code.is_empty() || code.len() > 32 || !code.bytes().all(good) {
        return None;
    }
    let mut codes = CODES.lock().unwrap_or_else(PoisonError::into_inner);
    let kept = match codes.get(code) {
        Some(kept) => kept,
        None => {
            let kept: &'static str = code.to_owned().leak();
            codes.insert(kept);
            kept
        }
    };
    Some(Language::Other(Code(kept)))
}

languages! {
    Afrikaans "af" 1 2, Albanian "sq" 2 2, Armenian "hy" 1 2, Assamese "as" 1 1, Basque "eu" 2 2, Belarusian "be" 2 2,
    Bengali "bn" 1 1, Bulgarian "bg" 2 2, Catalan "ca" 2 2, Chinese "zh-latn-pinyin" 1 2, Coptic "cop" 1 1,
    Croatian "hr" 2 2, Czech "cs" 2 3, Danish "da" 2 2, Dutch "nl" 2 2, EnglishGB "en-gb" 2 3, EnglishUS "en-us" 2 3,
    Esperanto "eo" 2 2, Estonian "et" 2 3, Ethiopic "mul-ethi" 1 1, Finnish "fi" 2 2,
    FinnishScholastic "fi-x-school" 1 1, French "fr" 2 2, Friulan "fur" 2 2, Galician "gl" 2 2, Georgian "ka" 1 2,
    German1901 "de-1901" 2 2, German1996 "de-1996" 2 2, GermanSwiss "de-ch-1901" 2 2, GreekAncient "grc" 1 1,
    GreekMono "el-monoton" 1 1, GreekPoly "el-polyton" 1 1, Gujarati "gu" 1 1, Hindi "hi" 1 1, Hungarian "hu" 2 2,
    Icelandic "is" 2 2, Indonesian "id" 2 2, Interlingua "ia" 2 2, Irish "ga" 2 3, Italian "it" 2 2, Kannada "kn" 1 1,
    Kurmanji "kmr" 2 2, Latin "la" 2 2, LatinClassic "la-x-classic" 2 2, LatinLiturgical "la-x-liturgic" 2 2,
    Latvian "lv" 2 2, Lithuanian "lt" 2 2, Macedonian "mk" 2 2, Malayalam "ml" 1 1, Marathi "mr" 1 1,
    Mongolian "mn-cyrl" 2 2, NorwegianBokmal "nb" 2 2, NorwegianNynorsk "nn" 2 2, Occitan "oc" 2 2, Oriya "or" 1 1,
    Pali "pi" 1 2, Panjabi "pa" 1 1, Piedmontese "pms" 2 2, Polish "pl" 2 2, Portuguese "pt" 2 3, Romanian "ro" 2 2,
    Romansh "rm" 2 2, Russian "ru" 2 2, Sanskrit "sa" 1 3, SerbianCyrillic "sr-cyrl" 2 2,
    SerbocroatianCyrillic "sh-cyrl" 2 2, SerbocroatianLatin "sh-latn" 2 2, SlavonicChurch "cu" 1 2, Slovak "sk" 2 3,
    Slovenian "sl" 2 2, Spanish "es" 2 2, Swedish "sv" 2 2, Tamil "ta" 1 1, Telugu "te" 1 1, Thai "th" 2 3,
    Turkish "tr" 2 2, Turkmen "tk" 2 2, Ukrainian "uk" 2 2, Uppersorbian "hsb" 2 2, Welsh "cy" 2 3,
}

/// The name of the language, such as `EnglishUS`; the code of one that has no name here.
impl fmt::Display for Language {
    fn fmt(&self, f: &mut fmt::Formatter<'_>) -> fmt::Result {
        match self {
            Language::Other(code) => f.write_str(code.0),
            named => write!(f, "{named:?}"),
        }
    }
}
