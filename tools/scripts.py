"""The common parts of the programs that are scripts: arguments, messages and statuses, the program that they start, their end.

It is installed in share/hyphenate-languages, with the file VERSION. Other modules are loaded where they are needed: to load all
takes longer than to answer --help.
"""

import os
import sys

HERE = os.path.dirname(os.path.realpath(__file__))
IS_IN_REPOSITORY = os.path.basename(HERE) == "tools"
# The program that runs, and its folder.
FOLDER, NAME = os.path.split(os.path.realpath(sys.argv[0]))
# Exit statuses, as the other programs have them.
DONE, NOT_ALL, BAD_ARGUMENTS, CANT_WRITE = 0, 1, 2, 5


def say(text):
    print(f"{NAME}: {text}", file=sys.stderr)


class Failure(Exception):
    """An end with a message and a status."""

    def __init__(self, status, text):
        super().__init__(text)
        self.status = status


def parser_of(usage):
    """A parser of arguments, whose errors have the form of the other programs."""
    import argparse

    def refuse(message):
        raise Failure(BAD_ARGUMENTS, f"{message}\n{usage}".rstrip())

    parser = argparse.ArgumentParser(add_help=False, allow_abbrev=False)
    parser.error = refuse
    return parser


def version():
    with open(os.path.join(HERE, "VERSION"), encoding="utf-8") as file:
        return file.read().strip()


def write(text):
    """Writes to standard output. The names of folders may be of any bytes."""
    if sys.stdout is None:
        raise Failure(CANT_WRITE, "the result can't be written")
    try:
        sys.stdout.reconfigure(encoding="utf-8", errors="surrogateescape")
        sys.stdout.write(text)
        sys.stdout.flush()
    except OSError:
        # what is left in the buffer is not to be tried again at the end
        os.dup2(os.open(os.devnull, os.O_WRONLY), sys.stdout.fileno())
        raise Failure(CANT_WRITE, "the result can't be written") from None


def program(name):
    """The path of a program: of the folder HYPHENATE_BIN, else beside the one that runs, else of PATH."""
    import shutil

    if os.environ.get("HYPHENATE_BIN"):
        return os.path.join(os.environ["HYPHENATE_BIN"], name)
    beside = os.path.join(FOLDER, name)
    found = beside if os.access(beside, os.X_OK) else shutil.which(name)
    if not found:
        raise Failure(NOT_ALL, f"there is no {name}, neither in {FOLDER} nor in PATH")
    return found


def end(number, _):
    """Ends the program at a signal, so that unfinished files are removed."""
    raise SystemExit(128 + number)


def end_at_signals():
    """Sets what signals do, unless they are ignored."""
    import signal

    for number in (signal.SIGHUP, signal.SIGINT, signal.SIGTERM):
        if signal.getsignal(number) is not signal.SIG_IGN:
            signal.signal(number, end)


def run(usage, main):
    """Runs a program, and ends with its status. --help, -h and --version stand alone, and nothing more is loaded for these."""
    try:
        if sys.argv[1:] in (["--help"], ["-h"], ["--version"]):
            write(f"{NAME} {version()}\n" if sys.argv[1] == "--version" else usage)
            sys.exit(DONE)
        end_at_signals()
        sys.exit(main())
    except Failure as failure:
        say(failure)
        sys.exit(failure.status)
    except ImportError as error:
        say(f"a module is missing: {error}")
        sys.exit(NOT_ALL)
    except OSError as error:
        say(f"{error.filename}: {error.strerror}")
        sys.exit(NOT_ALL)
