"""The calls of libhyphenation.so.0 by ctypes: hyphenation.h says what each does, and what a caller must keep to.

`Handle` and the functions are those of the extension `_extension`, which takes their place where it was built. There is no
lock. Short calls keep all other threads waiting, so a handle is given to one call at a time. Long calls let other threads
run, and so have a handle of their own, which shares the dictionary. So it is with a call for a long word.
"""

import ctypes
from array import array
from ctypes import POINTER, addressof, byref, c_bool, c_char_p, c_size_t, c_uint8, c_uint32, c_void_p
from itertools import accumulate
from typing import Any, Callable, List, Optional, Tuple

from ._results import DONE, NO_EXCEPTION, NO_ROOM, Loaded, encoded, fail, library_path, positions


class _Held(ctypes.Structure):
    _fields_ = [("at", c_void_p), ("held", c_bool)]


class _Patterns(ctypes.Structure):
    _fields_ = [
        ("kind", c_uint32), ("form", c_uint32), ("language", c_char_p), ("language_length", c_size_t),
        ("left", c_uint32), ("right", c_uint32), ("patterns", c_char_p), ("patterns_length", c_size_t),
        ("exceptions", c_char_p), ("exceptions_length", c_size_t),
    ]


class _Fault(ctypes.Structure):
    _fields_ = [("file", c_size_t), ("line", c_size_t), ("cause", c_uint32)]


_LONG, _SHORT = ctypes.CDLL(library_path()), ctypes.PyDLL(library_path())
_Call = Callable[..., Any]


def _declare(library: ctypes.CDLL, name: str, *arguments: Any, result: Any = c_uint32) -> _Call:
    call = getattr(library, "hyphenation_" + name)
    call.argtypes, call.restype = arguments, result
    found: _Call = call
    return found


_HANDLE = POINTER(_Held)
_FAULT = (_HANDLE, POINTER(c_size_t), POINTER(c_uint32))
# (A buffer and its count are plain addresses: they are made once.)
_BUFFER = (c_void_p, c_size_t, c_void_p)
_TEXT = (c_char_p, c_size_t)
_kind_of = _declare(_SHORT, "kind_of", *_TEXT)
_load = _declare(_LONG, "load", c_uint32, *_TEXT, *_FAULT)
_load_dic = _declare(_LONG, "load_dic", c_uint32, *_TEXT, c_uint32, c_uint32, *_TEXT, *_FAULT)
_load_patterns = _declare(_LONG, "load_patterns", POINTER(_Patterns), _HANDLE, POINTER(_Fault))
_free = _declare(_SHORT, "free", _HANDLE, result=None)
_share = _declare(_SHORT, "share", _HANDLE, _HANDLE)
_edit = _declare(_SHORT, "edit", _HANDLE, *_TEXT)
_add_exceptions = _declare(_SHORT, "add_exceptions", _HANDLE, *_TEXT, POINTER(c_size_t), POINTER(c_uint32))
_raise_minima = _declare(_SHORT, "raise_minima", _HANDLE, c_uint8, c_uint8)
_language = _declare(_SHORT, "language", _HANDLE, *_BUFFER)
_minima = _declare(_SHORT, "minima", _HANDLE, POINTER(c_size_t), POINTER(c_size_t))
# These three are called for each word. Their arguments have types of C already, so none is converted.
_breaks, _breaks_of_long = _declare(_SHORT, "breaks"), _declare(_LONG, "breaks")
_composed_breaks, _composed_breaks_of_long = _declare(_SHORT, "composed_breaks"), _declare(_LONG, "composed_breaks")
_changes, _changes_of_long = _declare(_SHORT, "changes"), _declare(_LONG, "changes")
for _call in _breaks, _breaks_of_long, _composed_breaks, _composed_breaks_of_long, _changes, _changes_of_long:
    _call.argtypes = None  # type: ignore[attr-defined]
_breaks_of_words = _declare(_LONG, "breaks_of_words", _HANDLE, *_TEXT, c_void_p, c_size_t, *_BUFFER, *_BUFFER)
_values, _values_of_long = (_declare(library, "values", _HANDLE, *_TEXT, *_BUFFER) for library in (_SHORT, _LONG))
_exception = _declare(_SHORT, "exception", _HANDLE, *_TEXT, *_BUFFER, *_BUFFER)
_text = _declare(_LONG, "text", _HANDLE, *_TEXT, *_TEXT, *_BUFFER)
_fill = _declare(_LONG, "fill", _HANDLE, *_TEXT, c_size_t, *_BUFFER)
_write = _declare(_LONG, "write", _HANDLE, *_BUFFER)
_paths = _declare(_SHORT, "paths", *_TEXT, *_TEXT, *_TEXT, *_TEXT, *_BUFFER)
_exception_paths = _declare(_SHORT, "exception_paths", *_TEXT, *_TEXT, *_TEXT, *_TEXT, *_BUFFER)
_cause_message = _declare(_SHORT, "cause_message", c_uint32, result=c_char_p)

# Lengths of short texts, as the calls for each word take them.
_LENGTHS = tuple(map(c_size_t, range(256)))
# A call for a word of as many bytes may take long.
_LONG_WORD = 1 << 12


def _check(status: int) -> None:
    if status != DONE:
        fail(status)


def _written(room: int, call: _Call, *arguments: Any) -> bytes:
    """Makes a call that writes bytes, with a room and then, if it is too short, with the room that is wanted."""
    count, buffer = c_size_t(), ctypes.create_string_buffer(room)
    status = call(*arguments, addressof(buffer), room, byref(count))
    if status == NO_ROOM:
        room = count.value
        buffer = ctypes.create_string_buffer(room)
        status = call(*arguments, addressof(buffer), room, byref(count))
    _check(status)
    return ctypes.string_at(buffer, count.value)


def kind_of(text: bytes) -> int:
    """Returns the kind that a dictionary text names."""
    kind: int = _kind_of(text, len(text))
    return kind


def cause_message(cause: int) -> str:
    """Returns the message of a cause: why a text or a file is refused."""
    message: bytes = _cause_message(cause)
    return message.decode()


def paths(language: bytes, path: bytes, data_home: bytes, home: bytes) -> bytes:
    """Returns the paths at which the dictionary of a language is looked for, each with a NUL behind it."""
    arguments = [argument for text in (language, path, data_home, home) for argument in (text, len(text))]
    return _written(4096, _paths, *arguments)


def exception_paths(language: bytes, path: bytes, data_home: bytes, home: bytes) -> bytes:
    """Returns the paths at which the list of exceptions of a language is looked for, each with a NUL behind it."""
    arguments = [argument for text in (language, path, data_home, home) for argument in (text, len(text))]
    return _written(4096, _exception_paths, *arguments)


class _Rooms:
    """Room for the results of the calls that are made for each word."""

    def __init__(self) -> None:
        self.count, self.length = c_size_t(), c_size_t()
        self.count_at, self.length_at = byref(self.count), byref(self.length)
        self.give_places(64)
        self.give_changes(64, 512)

    def give_places(self, room: int) -> None:
        self.places: Any = (c_size_t * room)()
        self.places_room, self.places_at = c_size_t(room), byref(self.places)

    def give_changes(self, room: int, texts_room: int) -> None:
        # Each change is five numbers: its place, its range, and the lengths of its two texts.
        self.changes: Any = (c_size_t * (5 * room))()
        self.changes_room, self.changes_at = c_size_t(room), byref(self.changes)
        self.texts = ctypes.create_string_buffer(texts_room)
        self.texts_room, self.texts_at = c_size_t(texts_room), byref(self.texts)


class Handle:
    """A dictionary, or none."""

    def __init__(self) -> None:
        self._held = _Held()
        self._at = byref(self._held)
        # A call takes a room from here, and gives it back. So two calls never have one: another thread, or a signal handler
        # that interrupts the call, finds none, and makes its own.
        self._spare: List[_Rooms] = []

    def load(self, kind: int, text: bytes) -> Loaded:
        line, cause = c_size_t(), c_uint32()
        status = _load(kind, text, len(text), self._at, byref(line), byref(cause))
        return status, 0, line.value, cause.value

    def load_dic(self, kind: int, language: bytes, left: int, right: int, dic: bytes) -> Loaded:
        line, cause = c_size_t(), c_uint32()
        status = _load_dic(
            kind, language, len(language), left, right, dic, len(dic), self._at, byref(line), byref(cause)
        )
        return status, 0, line.value, cause.value

    def load_patterns(
        self, kind: int, form: int, language: bytes, left: int, right: int, patterns: bytes, exceptions: bytes
    ) -> Loaded:
        fault = _Fault()
        files = _Patterns(
            kind, form, language, len(language), left, right, patterns, len(patterns), exceptions, len(exceptions)
        )
        status = _load_patterns(byref(files), self._at, byref(fault))
        return status, fault.file, fault.line, fault.cause

    def share(self) -> "Handle":
        other = Handle()
        _check(_share(self._at, other._at))
        return other

    def close(self) -> None:
        _free(self._at)

    def edit(self, edit: bytes) -> None:
        _check(_edit(self._at, edit, len(edit)))

    def add_exceptions(self, text: bytes) -> Loaded:
        line, cause = c_size_t(), c_uint32()
        status = _add_exceptions(self._at, text, len(text), byref(line), byref(cause))
        return status, 0, line.value, cause.value

    def raise_minima(self, left: int, right: int) -> None:
        _check(_raise_minima(self._at, left, right))

    def language(self) -> str:
        return _written(32, _language, self._at).decode()

    def minima(self) -> Tuple[int, int]:
        left, right = c_size_t(), c_size_t()
        _check(_minima(self._at, byref(left), byref(right)))
        return left.value, right.value

    def _lent(self, text: bytes) -> "Handle":
        """Returns the handle that is asked for a word: a long one has one of its own, since other threads run meanwhile."""
        return self if len(text) < _LONG_WORD else self.share()

    def _places(self, text: bytes, call: _Call = _breaks, call_of_long: _Call = _breaks_of_long) -> List[int]:
        if len(text) < 256:
            length, lent = _LENGTHS[len(text)], self
        else:
            length, lent = c_size_t(len(text)), self._lent(text)
            if lent is not self:
                call = call_of_long
        try:
            rooms = self._spare.pop()
        except IndexError:
            rooms = _Rooms()
        status = call(lent._at, text, length, rooms.places_at, rooms.places_room, rooms.count_at)
        if status == NO_ROOM:
            rooms.give_places(rooms.count.value)
            status = call(lent._at, text, length, rooms.places_at, rooms.places_room, rooms.count_at)
        if status != DONE:
            fail(status)
        found: List[int] = rooms.places[:rooms.count.value]
        self._spare.append(rooms)
        return found

    def places(self, word: str) -> List[int]:
        """Returns the places of a word's breaks, in bytes."""
        return self._places(encoded(word))

    def positions(self, word: str) -> List[int]:
        """Returns the positions of a word's breaks, in characters."""
        text = encoded(word)
        return positions(text, self._places(text))

    def composed_positions(self, word: str) -> List[int]:
        """Returns the positions of a word's breaks, as its NFC is broken."""
        text = encoded(word)
        return positions(text, self._places(text, _composed_breaks, _composed_breaks_of_long))

    def changes(self, word: str) -> Tuple[List[int], Optional[List[Tuple[int, int, int, str, str]]]]:
        """Returns the positions of a word's breaks; and the breaks if one of them makes a change."""
        text = encoded(word)
        if len(text) < 256:
            length, call, lent = _LENGTHS[len(text)], _changes, self
        else:
            length, lent = c_size_t(len(text)), self._lent(text)
            call = _changes if lent is self else _changes_of_long
        try:
            rooms = self._spare.pop()
        except IndexError:
            rooms = _Rooms()
        status = call(
            lent._at, text, length, rooms.changes_at, rooms.changes_room, rooms.count_at, rooms.texts_at,
            rooms.texts_room, rooms.length_at,
        )
        if status == NO_ROOM:
            rooms.give_changes(max(rooms.count.value, 64), max(rooms.length.value, 512))
            status = call(
                lent._at, text, length, rooms.changes_at, rooms.changes_room, rooms.count_at, rooms.texts_at,
                rooms.texts_room, rooms.length_at,
            )
        if status != DONE:
            fail(status)
        numbers: List[int] = rooms.changes[:5 * rooms.count.value]
        texts = rooms.texts.raw[:rooms.length.value] if rooms.length.value else b""
        self._spare.append(rooms)
        places, begins, ends = numbers[::5], numbers[1::5], numbers[2::5]
        if not texts and places == begins == ends:
            return positions(text, places), None
        places, begins, ends = positions(text, places), positions(text, begins), positions(text, ends)
        found, at = [], 0
        for place, begin, end, before, after in zip(places, begins, ends, numbers[3::5], numbers[4::5]):
            middle, last = at + before, at + before + after
            found.append((place, begin, end, texts[at:middle].decode(), texts[middle:last].decode()))
            at = last
        return places, found

    def positions_of(self, words: Tuple[str, ...]) -> List[List[int]]:
        """Returns the positions of the breaks of each of the words."""
        texts, number = list(map(encoded, words)), len(words)
        content = b"".join(texts)
        ends = array("Q", accumulate(map(len, texts)))
        place_ends = array("Q", bytes(8 * number))
        places, count, length = array("Q", bytes(8 * (len(content) // 4 + 16))), c_size_t(), c_size_t()
        other = self.share()

        def ask() -> int:
            status: int = _breaks_of_words(
                other._at, content, len(content), ends.buffer_info()[0], number, places.buffer_info()[0],
                len(places), byref(count), place_ends.buffer_info()[0], number, byref(length),
            )
            return status

        status = ask()
        if status == NO_ROOM:
            places = array("Q", bytes(8 * count.value))
            status = ask()
        _check(status)
        found, stops = places[:count.value].tolist(), place_ends.tolist()
        all_places = [found[begin:end] for begin, end in zip([0] + stops, stops)]
        return all_places if content.isascii() else list(map(positions, texts, all_places))

    def values(self, word: str) -> bytes:
        """Returns the values of a word's places."""
        text = encoded(word)
        lent = self._lent(text)
        return _written(max(len(text), 1), _values if lent is self else _values_of_long, lent._at, text, len(text))

    def exception(self, word: str) -> Optional[List[Tuple[int, int, int, str, str]]]:
        """Returns the breaks that are listed for a word; none if it is no exception."""
        text = encoded(word)
        room, texts_room, count, length = 64, 512, c_size_t(), c_size_t()
        # A second time with the rooms that are wanted, if the first ones are too short.
        for _ in range(2):
            # Each break is six numbers: its place, whether there is a change, what it takes, and of its text.
            numbered, texts = (c_size_t * (6 * room))(), ctypes.create_string_buffer(texts_room)
            status = _exception(
                self._at, text, len(text), addressof(numbered), room, byref(count), addressof(texts), texts_room,
                byref(length),
            )
            if status != NO_ROOM:
                break
            room, texts_room = max(count.value, 1), max(length.value, 1)
        if status == NO_EXCEPTION:
            return None
        _check(status)
        numbers: List[int] = numbered[:6 * count.value]
        places, lefts, rights, breakpoints, sizes = numbers[::6], numbers[2::6], numbers[3::6], numbers[4::6], numbers[5::6]
        begins = positions(text, [place - left for place, left in zip(places, lefts)])
        ends = positions(text, [place + right for place, right in zip(places, rights)])
        content, found, at = ctypes.string_at(texts, length.value), [], 0
        for place, begin, end, breakpoint, size in zip(positions(text, places), begins, ends, breakpoints, sizes):
            middle, last = at + breakpoint, at + size
            found.append((place, begin, end, content[at:middle].decode(), content[middle:last].decode()))
            at = last
        return found

    def text(self, text: str, mark: str) -> str:
        """Returns a text with the mark at each break of its words."""
        content, sign, other = encoded(text), encoded(mark), self.share()
        room = len(content) + len(content) // 2 + 16
        return _written(room, _text, other._at, content, len(content), sign, len(sign)).decode()

    def fill(self, text: str, columns: int) -> str:
        """Returns the lines of a paragraph, each with a line feed behind it."""
        content, other = encoded(text), self.share()
        room = len(content) + len(content) // 8 + 16
        return _written(room, _fill, other._at, content, len(content), columns).decode()

    def write(self) -> str:
        """Returns the canonical text of the dictionary."""
        other = self.share()
        return _written(1 << 12, _write, other._at).decode()

    def __del__(self, _free: _Call = _free) -> None:
        _free(self._at)
