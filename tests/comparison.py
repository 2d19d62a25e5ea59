"""The breaks of this library and of another one, for LibreOffice's .dic files and lists of words."""

import argparse
import os
import subprocess
import sys
import tempfile
import unicodedata
from collections import namedtuple

sys.path.insert(0, os.path.join(os.path.dirname(os.path.realpath(__file__)), "..", "tools"))
from programs import program, prove  # noqa: E402

# No word that is compared has it: words have only letters.
MARK = "="
LEAST_LETTERS = 4
# How many words of each list are compared.
WORDS = 5000

# Charsets that Python has under another name.
CODECS = {"microsoft-cp1251": "cp1251"}

Compared = namedtuple("Compared", "words same differing")


def charset_of(dic):
    """The charset in the first line of a .dic. Without one libhyphen compares bytes, which Latin-1 does too."""
    with open(dic, "rb") as file:
        name = file.readline().strip().decode("latin-1")
    name = CODECS.get(name, name)
    try:
        "".encode(name)
    except LookupError:
        return "latin-1"
    return name


def text_of(bytes_):
    """The text of a list of words, in UTF-8 or Latin-1, as Debian's lists are."""
    try:
        return bytes_.decode("utf-8")
    except UnicodeDecodeError:
        return bytes_.decode("latin-1")


def lines_of(path, charset):
    """The lines of a file, which only line feeds separate."""
    with open(path, "rb") as file:
        return file.read().decode(charset).rstrip("\n").split("\n")


def spelling_charset(affixes):
    """The charset that a hunspell dictionary names in its .aff."""
    with open(affixes, "rb") as file:
        for line in file:
            # A byte order mark may be before the first line.
            words = line.lstrip(b"\xef\xbb\xbf").split()
            if len(words) == 2 and words[0] == b"SET":
                name = words[1].decode("latin-1")
                return CODECS.get(name, name)
    return "latin-1"


def listed_words(path):
    """The lines of a list of words. In a hunspell dictionary (.dic next to an .aff) only the part before the / counts."""
    with open(path, "rb") as file:
        bytes_ = file.read()
    affixes = path[: -len(".dic")] + ".aff"
    if not (path.endswith(".dic") and os.path.isfile(affixes)):
        return text_of(bytes_).splitlines()
    lines = bytes_.decode(spelling_charset(affixes), errors="replace").splitlines()
    return [line.split("/")[0].split("\t")[0] for line in lines[1:]]


def has_only_letters(word):
    """Whether a word has only letters, and marks that belong to letters, as in Hindi."""
    return word.isalpha() or all(unicodedata.category(char)[0] in "LM" for char in word)


def can_be_written(word, charset):
    try:
        word.encode(charset)
    except UnicodeEncodeError:
        return False
    return True


def chosen_words(path, charset, number):
    """This many words, evenly from a list: in small letters, of at least four letters and nothing else.

    Words that the charset can't write are left out, since the other library can't be called with them.
    """
    small = (word.strip().lower() for word in listed_words(path))
    fitting = (word for word in small if len(word) >= LEAST_LETTERS and has_only_letters(word))
    words = list(dict.fromkeys(word for word in fitting if can_be_written(word, charset)))
    if len(words) <= number:
        return words
    return [words[index * len(words) // number] for index in range(number)]


class Refused(Exception):
    """A program of ours ended with a status other than 0. The argument is its message."""


def run(command, **how):
    """The output of a program of ours."""
    ran = subprocess.run(command, capture_output=True, check=False, **how)
    if ran.returncode:
        said = ran.stderr.decode(errors="replace").strip()
        raise Refused(said or f"{command[0]} ended with status {ran.returncode}")
    return ran.stdout


def our_breaks(dic, kind, words):
    """Each word with our breaks marked, by one call of hyphenate, and the dictionary's minima."""
    with tempfile.TemporaryDirectory() as folder:
        path = os.path.join(folder, "dictionary.txt")
        text = run([program("hyphenate-convert"), kind, "xx", "-", "-", dic])
        with open(path, "wb") as file:
            file.write(text)
        lines = "".join(f"{word}\n" for word in words).encode()
        marked = run([program("hyphenate"), kind, "xx", path, MARK], input=lines).decode().split("\n")[:-1]
    left, right = text.split(b"\n")[2].split()[1:]
    return marked, int(left), int(right)


def marked_at(word, places):
    """A word with the mark at each of the places, which count characters."""
    pieces = [word[begin:end] for begin, end in zip([0, *places], [*places, len(word)])]
    return MARK.join(pieces)


def compare(theirs, dic, list_path, kind="standard", number=WORDS):
    """Compares the breaks of words. `theirs(dic, kind, words, left, right)` returns the words with the other's breaks marked."""
    words = chosen_words(list_path, charset_of(dic), number)
    ours, left, right = our_breaks(dic, kind, words)
    others = theirs(dic, kind, words, left, right)
    differing = [triple for triple in zip(words, ours, others) if triple[1] != triple[2]]
    return Compared(len(words), len(words) - len(differing), differing)


def parser_of(name, text):
    """The parser of the arguments of both scripts."""
    raw = argparse.RawDescriptionHelpFormatter
    parser = argparse.ArgumentParser(prog=f"tests/{name}", description=text, formatter_class=raw)
    parser.add_argument("files", nargs="*", metavar="FILE", help="DIC WORDS DIC WORDS ..: each .dic with a list of words")
    parser.add_argument("--kind", choices=["standard", "extended"], default="standard", help="the kind of dictionary")
    parser.add_argument("--words", type=int, default=WORDS, metavar="N", help=f"how many words of each list ({WORDS})")
    parser.add_argument("--show", type=int, default=0, metavar="N", help="how many of the differing words to show (0)")
    return parser


def status_of(name, main):
    """Proves the programs, does the work of a script, and returns its status.

    The status is 0 if all breaks are the same, 1 if some differ, and 2 if nothing could be compared.
    """
    try:
        return 0 if main(lambda: prove(name, "hyphenate-convert", "hyphenate")) else 1
    except (OSError, Refused) as error:
        print(error, file=sys.stderr)
        return 2


def compare_all(theirs, given):
    """Compares the files of the arguments, prints the results, and returns whether all words have the same breaks."""
    all_same = True
    for dic, list_path in zip(given.files[::2], given.files[1::2]):
        found = compare(theirs, dic, list_path, given.kind, given.words)
        name = f"{os.path.basename(dic)} {given.kind}, {os.path.basename(list_path)}"
        print(f"{name}: {found.same} of {found.words} words have the same breaks", flush=True)
        for word, our, their in found.differing[: given.show]:
            print(f"  {word}: here {our}, there {their}")
        all_same = all_same and not found.differing
    return all_same
