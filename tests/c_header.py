#!/usr/bin/env python3
"""c_header.py LIBRARY: compares bindings/c/hyphenation.h and libhyphenation.so.0 with the proved crates. It prints how much
was compared. tests/bindings runs it.

- The statuses of the header have the numbers of c_calls/src/statuses.rt, and each has a message in the library.
- The message of each cause is the one that the proved crates write for it, and no other number has one.
- The version is that of tools/VERSION.
- A comment is before each call. It says each argument by its name, in their order, and the result.
"""
import ctypes
import pathlib
import re
import sys

ROOT = pathlib.Path(__file__).resolve().parent.parent
HEADER = (ROOT / "bindings/c/hyphenation.h").read_text()
CRATES = ROOT / "crates"
library = ctypes.CDLL(sys.argv[1])
wrong = []


def text(name, *arguments):
    call = getattr(library, "hyphenation_" + name)
    call.restype, call.argtypes = ctypes.c_char_p, [ctypes.c_uint32] * len(arguments)
    return call(*arguments).decode()


def same(name, found, wanted):
    if found != wanted:
        wrong.append(f"{name}: {found!r}, and not {wanted!r}")


def statuses():
    proved = dict(re.findall(r"pub const (\w+): u32 = (\d+);", (CRATES / "c_calls/src/statuses.rt").read_text()))
    body = re.search(r"typedef enum hyphenation_status \{(.*?)\}", HEADER, re.S).group(1)
    declared = dict(re.findall(r"HYPHENATION_(\w+) = (\d+)", body))
    same("the statuses", declared, proved)
    for number in range(100):
        if bool(text("status_message", number)) != (str(number) in proved.values()):
            wrong.append(f"the message of status {number}: {text('status_message', number)!r}")
    return len(proved)


def causes():
    """The messages by number: of each cause, its number in c_calls and its message in the crate that has it."""
    wanted = {}
    for numbers, messages in (("c_calls/src/numbers.rt", "hyphenation_grammar/src/lib.rt"),
                              ("c_calls/src/patterns.rt", "pattern_results/src/errors.rt")):
        named = dict(re.findall(r"Cause::(\w+) => (\d+),", (CRATES / numbers).read_text()))
        said = dict(re.findall(r'Cause::(\w+) =>\s+"((?:[^"\\]|\\.)*)",', (CRATES / messages).read_text()))
        same(f"the causes of {messages}", sorted(said), sorted(named))
        wanted.update({int(number): said.get(name, "").replace("\\\\", "\\") for name, number in named.items()})
    for number in range(100):
        same(f"the message of cause {number}", text("cause_message", number), wanted.get(number, ""))
    return len(wanted)


def comments():
    calls = re.findall(r"^(?:/\*\* ((?:[^*]|\*(?!/))*)\*/\n)?^((?:hyphenation_\w+|const char \*|void) ?(\w+)\(([^;]*)\);)",
                       HEADER, re.M)
    for comment, declaration, name, parameters in calls:
        names = [] if parameters == "void" else re.findall(r"(\w+)(?:,|$)", parameters)
        same(f"the arguments that are said of {name}", re.findall(r"@param (\w+) \S", comment or ""), names)
        if names and not declaration.startswith("void") and "@return" not in comment:
            wrong.append(f"{name}: its result is not said")
    return len(calls)


same("the version", text("version"), (ROOT / "tools/VERSION").read_text().strip())
counts = statuses(), causes(), comments()
for it in wrong:
    print(it)
print("%d statuses, %d causes, %d calls" % counts)
sys.exit(1 if wrong else 0)
