"""What the calls of the library return: statuses, causes, breaks, and the exceptions that take the place of statuses."""

import os
from typing import Callable, Dict, List, NamedTuple, NoReturn, Optional, Tuple

DONE, NO_ROOM, OUT_OF_MEMORY, NO_DICTIONARY, NOT_UTF8, REFUSED, OTHER_KIND, NO_LANGUAGE = range(8)
BAD_ENDS, NO_MINIMA, NO_EXCEPTION = 8, 9, 10
STANDARD, EXTENDED, NO_KIND = range(3)

#: The results of a call that loads: its status, the file and the line of a fault, and the cause.
Loaded = Tuple[int, int, int, int]


class TextRefused(ValueError):
    """A dictionary text, a file of patterns or a list of exceptions is faulty.

    `line` is the first faulty line, counted from 1, and `cause` the message of the first test that it fails. `file` is 1
    where the line is one of the exceptions that `Dictionary.from_patterns` got, and else 0. `path` is the path of the list
    of exceptions that `Dictionary.for_language` found, if the line is there, and else None.

    >>> from hyphenation import Dictionary
    >>> Dictionary(b"hyphenation 1 standard\\nlanguage en\\nx")
    Traceback (most recent call last):
    hyphenation.TextRefused: line 3: not a minima line
    """

    def __init__(self, line: int, cause: str, file: int = 0, path: Optional[str] = None) -> None:
        """Takes the line, the message of the cause, the number of the file, and the path of a list of exceptions."""
        where = path + ": " if path else "exceptions, " if file else ""
        super().__init__("{}line {}: {}".format(where, line, cause))
        self.line, self.cause, self.file, self.path = line, cause, file, path

    def __reduce__(self) -> Tuple[Callable[..., "TextRefused"], Tuple[int, str, int, Optional[str]]]:
        return type(self), (self.line, self.cause, self.file, self.path)


class EditRefused(ValueError):
    """An edit is faulty, or the positions may not be listed for the word."""


# The names by which users import them.
TextRefused.__module__ = EditRefused.__module__ = "hyphenation"


class Break(NamedTuple):
    """A break of a word, in characters.

    Where the word is broken at `position`, two texts take the place of the characters from `begin` to `end`: `before`
    at the end of a line, and `after` at the beginning of the next one. If nothing is changed, begin and end are the
    position, and both texts are empty.
    """

    position: int
    begin: int
    end: int
    before: str
    after: str


def fail(status: int) -> NoReturn:
    """Raises the exception that takes the place of a status other than DONE."""
    if status == OUT_OF_MEMORY:
        raise MemoryError
    if status == REFUSED:
        raise EditRefused("the edit is faulty, or the positions may not be listed for the word")
    if status == OTHER_KIND:
        raise TypeError("the dictionary is an extended one")
    if status == NO_DICTIONARY:
        raise ValueError("the dictionary is closed")
    if status == NO_LANGUAGE:
        raise ValueError("the language is not a code, such as en-us")
    if status == NO_MINIMA:
        raise ValueError("the file names no minima: give left and right")
    raise RuntimeError("the library returned the status {}, which this call does not have".format(status))


def wrong(given: object, wanted: str = "str") -> TypeError:
    """Returns the error of an argument of another type."""
    return TypeError("a {} is required, not {!r}".format(wanted, type(given).__name__))


def encoded(text: str) -> bytes:
    """Returns the UTF-8 of a str, and of a subclass that of the str that it is; all else is a TypeError."""
    try:
        return str.encode(text)
    except TypeError:
        raise wrong(text) from None


def positions(content: bytes, places: List[int]) -> List[int]:
    """Returns places in the bytes of a word as positions in its characters. Each byte is looked at once."""
    if content.isascii():
        return places
    found: Dict[int, int] = {}
    at = characters = 0
    for place in sorted(dict.fromkeys(places)):
        characters += len(content[at:place].decode())
        found[place], at = characters, place
    return [found[place] for place in places]


def library_path() -> str:
    """Returns the path or the name of the library: the one that HYPHENATION_LIBRARY names, else the one beside this file,
    else the system's."""
    own = os.path.join(os.path.dirname(os.path.abspath(__file__)), "libhyphenation.so.0")
    return os.environ.get("HYPHENATION_LIBRARY") or (own if os.path.exists(own) else "libhyphenation.so.0")
