"""Makes the dictionaries of rows of the list of languages."""

import os
import subprocess
from collections import namedtuple

import listed

# Why a dictionary was not made: the exit status of hyphenate-convert, and its last message.
Refused = namedtuple("Refused", "status why")
# The dictionary whose files are not there.
MISSING = "missing"


class CantStart(OSError):
    """The program hyphenate-convert can't be started."""


def run(command, text, said):
    """Runs a command to its end, and returns its status and what it wrote to `said`. An interrupt ends the command too."""
    try:
        child = subprocess.Popen(command, stdout=text, stderr=said)
    except OSError as error:
        raise CantStart(error.errno, error.strerror, command[0]) from None
    with child:
        try:
            _, message = child.communicate()
        except BaseException:
            child.terminate()
            raise
    return child.returncode, message or b""


def make(convert, row, paths, target, is_shown):
    """Makes the dictionary of a row, and returns why not, or None. The text gets its name only when it is whole.

    If `is_shown`, hyphenate-convert writes to standard error; else its last message is the reason of a refusal.
    """
    said = None if is_shown else subprocess.PIPE
    unfinished = os.path.join(os.path.dirname(target), f".{os.path.basename(target)}.{os.getpid()}")
    try:
        with open(unfinished, "wb") as text:
            status, message = run([convert, *listed.convert_arguments(row, paths)], text, said)
        if status == 0:
            os.replace(unfinished, target)
            return None
    finally:
        if os.path.exists(unfinished):
            os.remove(unfinished)
    lines = message.decode(errors="replace").splitlines()
    return Refused(status, lines[-1] if lines else f"hyphenate-convert ended with status {status}")


def make_each(convert, chosen, searched, folder, is_shown):
    """Makes a dictionary for each code and kind of `chosen`. It yields the name of each, its rows, and what came of it: None
    if it was made, MISSING, or Refused."""
    for (code, kind), same in chosen.items():
        name = listed.file_name(code, kind)
        there = listed.row_there(same, searched)
        if there:
            yield name, same, make(convert, *there, os.path.join(folder, name), is_shown)
        else:
            yield name, same, MISSING
