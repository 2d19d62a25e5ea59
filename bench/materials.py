"""The dictionaries and words that bench/measure and bench/compare measure with: those of Debian's packages."""

import glob
import os
import tempfile

import comparison
from running import ran

PATTERNS = "/usr/share/cargo/registry/hyphenation-*/patterns"
# The code of a language: its name, its minima for typesetting, and its list of words.
LANGUAGES = {
    "en-us": ("American English", (2, 3), "/usr/share/dict/american-english-huge"),
    "de-1996": ("German", (2, 2), "/usr/share/dict/ngerman"),
    "hu": ("Hungarian", (2, 2), "/usr/share/hunspell/hu_HU.dic"),
    "ru": ("Russian", (2, 2), "/usr/share/hunspell/ru_RU.dic"),
}


def pattern_file(code, kind="pat"):
    """The file of a language in hyph-utf8: its patterns (`pat`), or those that change letters too (`ext`)."""
    found = glob.glob(f"{PATTERNS}/hyph-{code}.{kind}.txt")
    if not found:
        raise OSError(f"there is no hyph-{code}.{kind}.txt in {PATTERNS} (Debian's package librust-hyphenation-dev)")
    return found[0]


def patterns(code, kind="pat"):
    """The patterns of a language, of the kind of `pattern_file`."""
    with open(pattern_file(code, kind), encoding="utf-8") as file:
        return file.read().split()


def exceptions(code):
    """The exceptions of a language, each with a hyphen at its breaks."""
    path = pattern_file(code).replace(".pat.", ".hyp.")
    if not os.path.exists(path):
        return []
    with open(path, encoding="utf-8") as file:
        return list(dict.fromkeys(file.read().split()))


def token(text):
    """A token of a dictionary text."""
    for plain, escaped in (("\\", "\\\\"), (" ", "\\s")):
        text = text.replace(plain, escaped)
    return text


def standard_text(code):
    """The dictionary text of a language: its patterns and exceptions."""
    left, right = LANGUAGES[code][1]
    lines = [f"hyphenation 1 standard\nlanguage {code}\nminima {left} {right}\n"]
    lines += [f"p {token(pattern)}\n" for pattern in patterns(code)]
    for word in exceptions(code):
        parts = word.split("-")
        places = [len("".join(parts[:at]).encode()) for at in range(1, len(parts))]
        lines.append(" ".join(["e", token("".join(parts)), *map(str, places)]) + "\n")
    return "".join(lines)


def extended_text(code, convert):
    """The dictionary text of a language with the patterns that change letters too, by the program hyphenate-convert."""
    minima = map(str, LANGUAGES[code][1])
    with tempfile.NamedTemporaryFile("w", suffix=".dic", encoding="utf-8") as dic:
        dic.write("UTF-8\n" + "".join(pattern + "\n" for pattern in patterns(code, "ext")))
        dic.flush()
        return ran([convert, "extended", code, *minima, dic.name]).stdout


def lowercase_words(code):
    """The words of a language's list that have only lowercase letters: of English those in ASCII, else the others."""
    words = (word for word in comparison.listed_words(LANGUAGES[code][2]) if word.isalpha() and word.islower())
    return [word for word in words if word.isascii() == (code == "en-us")]


def licences():
    """The text of the licences of a Debian machine: English, in UTF-8."""
    content = b""
    for path in sorted(glob.glob("/usr/share/common-licenses/*")):
        with open(path, "rb") as file:
            content += file.read()
    return content
