"""The rows of the list of languages, the codes of tags, the paths of files, and the names and folders of dictionaries."""

import glob
import os
import string
from collections import namedtuple

HERE = os.path.dirname(os.path.realpath(__file__))

# The folders in which Debian's packages have files of patterns. A file is taken from the first folder that has it.
KNOWN_FOLDERS = (
    "/usr/share/cargo/registry/hyphenation-*/patterns",
    "/usr/share/texlive/texmf-dist/tex/generic/hyph-utf8/patterns/txt",
    "/usr/share/texlive/texmf-dist/tex/generic/hyph-utf8/patterns/tex",
    "/usr/share/hyphen",
)
# The folders of dictionaries of the system, which the programs search last, as crates/language_search has them.
SYSTEM_FOLDERS = ("/usr/local/share/hyphenation", "/usr/share/hyphenation")
# A tag is searched in small letters, and with - for _. Letters beyond ASCII stay.
LONGEST_CODE = 32
SEARCHED = str.maketrans(string.ascii_uppercase + "_", string.ascii_lowercase + "-")

Row = namedtuple("Row", "language code kind left right preferred package files")


def words_of_lines(name):
    """The words of each line of a file of this folder, without comments."""
    with open(os.path.join(HERE, name), encoding="utf-8") as lines:
        return [line.split() for line in lines if line.strip() and not line.startswith("#")]


def rows():
    """The rows of the list, in its order."""
    found = []
    for language, code, kind, left, right, mark, package, *files in words_of_lines("list"):
        found.append(Row(language.replace("_", " "), code, kind, left, right, mark == "prefer", package, files))
    return found


def choices():
    """For each code and kind its rows, the preferred one first, the others in the list's order."""
    found = {}
    for row in rows():
        found.setdefault((row.code, row.kind), []).append(row)
    for same in found.values():
        same.sort(key=lambda row: not row.preferred)
    return found


def variants():
    """For each language whose patterns come only in variants the code of the usual one."""
    return dict(words_of_lines("variants"))


def fronts(tag):
    """A tag as it is searched, and then what is before each of its hyphens, from the last one to the first. Those that
    are longer than any code are left out."""
    searched = tag.translate(SEARCHED)
    ends = [len(searched), *(at for at in range(len(searched) - 1, -1, -1) if searched[at] == "-")]
    return [searched[:end] for end in ends if end <= LONGEST_CODE]


def code_of(tag, codes, usual):
    """The code by which a tag is found, among codes and usual variants, or None. The programs search in the same order."""
    names = (name for front in fronts(tag) for name in (front, usual.get(front)))
    return next((name for name in names if name in codes), None)


def folders(given):
    """The folders to search: the user's, then the known ones."""
    known = [folder for pattern in KNOWN_FOLDERS for folder in sorted(glob.glob(pattern))]
    return [*given, *known]


def paths_of(row, searched):
    """The paths of a row's files, all in one folder, or None. Files of two folders may be of two versions."""
    for folder in searched:
        paths = [os.path.join(folder, file) for file in row.files]
        if all(os.path.isfile(path) for path in paths):
            return paths
    return None


def row_there(same, searched):
    """The first of these rows whose files are there, and their paths; or None."""
    return next(((row, paths) for row in same for paths in [paths_of(row, searched)] if paths), None)


def is_utf8(name):
    """Whether an environment variable is UTF-8, or not there."""
    try:
        os.fsencode(os.environ.get(name, "")).decode()
    except UnicodeDecodeError:
        return False
    return True


def variable(name):
    """The value of an environment variable; empty if it is not there, or not UTF-8."""
    return os.environ.get(name, "") if is_utf8(name) else ""


def folders_of_user():
    """The folders of dictionaries that the programs search first: those of HYPHENATION_PATH, then that of the user's own. There
    is none without these variables."""
    named = [folder for folder in variable("HYPHENATION_PATH").split(":") if folder]
    home = variable("HOME")
    data = variable("XDG_DATA_HOME") or (home and os.path.join(home, ".local/share"))
    return named + ([os.path.join(data, "hyphenation")] if data else [])


def default_folder():
    """The folder to which dictionaries go, or None."""
    return next(iter(folders_of_user()), None)


def dictionary_folders():
    """The folders in which the programs search dictionaries, in their order, each once."""
    return list(dict.fromkeys([*folders_of_user(), *SYSTEM_FOLDERS]))


def texts_of(row, folders):
    """The paths of a row's dictionary in these folders, in their order."""
    paths = [os.path.join(folder, file_name(row.code, row.kind)) for folder in folders]
    return [path for path in paths if os.path.isfile(path)]


def file_name(code, kind):
    """The name of a dictionary text."""
    return f"{code}.txt" if kind == "standard" else f"{code}.{kind}.txt"


def convert_arguments(row, paths):
    """The arguments of hyphenate-convert for a row."""
    return [row.kind, row.code, row.left, row.right, *paths]


def reason(error):
    """The path that an error of the system names, if it does, and its reason."""
    path = error.filename2 or error.filename
    return f"{path}: {error.strerror}" if path else error.strerror or str(error)
