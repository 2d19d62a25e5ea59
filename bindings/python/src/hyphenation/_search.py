"""The search for the dictionary of a language, and for its list of exceptions."""

import importlib.util
import os
from typing import Iterator, List, Optional

from . import _calls
from ._results import encoded

#: The package of dictionaries, which need not be installed.
PACKAGE = "hyphenation_dictionaries"


def value(name: str) -> bytes:
    """Returns the value of a variable of the environment; an empty one if it is missing, or not UTF-8. HYPHENATION_PATH is
    refused then, with a ValueError."""
    try:
        return os.environ.get(name, "").encode()
    except UnicodeEncodeError:
        if name == "HYPHENATION_PATH":
            raise ValueError("HYPHENATION_PATH: not UTF-8") from None
        return b""


def paths(language: str, *values: bytes) -> List[str]:
    """Returns the paths at which the dictionary of a language is looked for, in their order, by the values of HYPHENATION_PATH,
    XDG_DATA_HOME and HOME."""
    found = _calls.paths(encoded(language), *values)
    return list(map(os.fsdecode, found.split(b"\0")[:-1]))


def exception_paths(language: str, *values: bytes) -> List[str]:
    """Returns the paths at which the list of exceptions of a language is looked for, in their order, by the same values."""
    found = _calls.exception_paths(encoded(language), *values)
    return list(map(os.fsdecode, found.split(b"\0")[:-1]))


def packaged() -> Optional[str]:
    """Returns the folder of the package of dictionaries, or None if it is not installed as a folder."""
    try:
        found = importlib.util.find_spec(PACKAGE)
    except (ImportError, ValueError):
        return None
    folders = list(found.submodule_search_locations or ()) if found else []
    return folders[0] if folders and os.path.isdir(folders[0]) else None


def _code(path: str) -> str:
    return os.path.basename(path).split(".")[0]


def _with_folder(searched: List[str], folder: str, *endings: str) -> Iterator[str]:
    """Yields paths, and behind those of each code the paths of that code with these endings in one folder more."""
    for at, path in enumerate(searched):
        yield path
        if at + 1 == len(searched) or _code(searched[at + 1]) != _code(path):
            for ending in endings:
                yield os.path.join(folder, _code(path) + ending)


def _values() -> Iterator[bytes]:
    return map(value, ("HYPHENATION_PATH", "XDG_DATA_HOME", "HOME"))


def searched(language: str) -> List[str]:
    """Returns the paths at which the dictionary of a language is looked for, in their order."""
    found, folder = paths(language, *_values()), packaged()
    return list(_with_folder(found, folder, ".txt", ".extended.txt")) if folder else found


def dictionary_path(language: str) -> Optional[str]:
    """Finds the dictionary of a language.

    It is searched in the folders that HYPHENATION_PATH names, then where hyphenate-languages writes, and then in
    /usr/local/share/hyphenation and /usr/share/hyphenation, as by all programs; and last in the Python package
    hyphenation_dictionaries, if that is installed. The whole tag comes first, as de-ch for "de_CH", and then the tag
    without its last part, as de and de-1996. A standard dictionary comes before an extended one.

    `language` is a tag, such as "de", "de_CH" or "sr-Latn". The result is the path of a file, or None if there is no
    dictionary. A tag that is not UTF-8 is a UnicodeEncodeError, and a HYPHENATION_PATH that is not is a ValueError. MemoryError
    is raised if memory is refused.

    >>> dictionary_path("../x") is None
    True
    """
    return next((path for path in searched(language) if os.path.isfile(path)), None)


def exceptions_path(language: str) -> Optional[str]:
    """Finds the list of exceptions of a language: words of the user's own, as `Dictionary.add_exceptions` takes them.

    It is a file such as de.exceptions, and is searched in the folders and by the names of `dictionary_path`; the first one
    is taken. The result is its path, or None if there is none. The errors are those of `dictionary_path`.

    >>> exceptions_path("../x") is None
    True
    """
    found, folder = exception_paths(language, *_values()), packaged()
    searched = _with_folder(found, folder, ".exceptions") if folder else iter(found)
    return next((path for path in searched if os.path.isfile(path)), None)
