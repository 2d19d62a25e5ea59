"""Runs the programs over long words, keys, lists and texts, many short ones, and texts in lines beside all their divisions.
tests/long-texts runs it.

Usage: long_texts.py PROGRAMS FOLDER. PROGRAMS is a folder with the programs. The last line is `N passed, M failed`.

The input of a run and the output that it must have are made here of the same pieces, or all divisions are tried. A
run of more than a minute fails, so the time can't grow with the square of such lengths.
"""

import itertools
import os
import pathlib
import string
import subprocess
import sys

SECONDS = 60
KINDS = ("standard", "extended")
# The shortest text with a pattern that is accepted.
SMALLEST = b"hyphenation 1 standard\nlanguage en-us\nminima 2 3\np a1b"
# The reason why a text is refused, each by a letter.
CAUSES = {
    "h": "line 1: not the head of this kind of dictionary",
    "n": "line 1: not UTF-8",
    "l": "line 2: not a language line",
    "m": "line 3: not a minima line",
    "u": "line 4: unknown line",
    "t": "line 4: bad token",
    ".": "",
}
# How each beginning of it is refused, from the empty one on; a dot is one that is accepted.
BEGINNINGS = "h" * 22 + "l" * 11 + "m" * 15 + "..ut..."
CHECKS = 464


class Runs:
    """Runs of programs, with what they must write, and how many were so."""

    def __init__(self, programs, folder):
        self.programs, self.folder = pathlib.Path(programs), pathlib.Path(folder)
        self.passed = self.failed = 0

    def check(self, fine, shows, *said):
        self.passed, self.failed = self.passed + fine, self.failed + (not fine)
        if not fine:
            print("WRONG:", shows, *said)

    def file(self, name, content):
        """A file of this content, in UTF-8."""
        path = self.folder / name
        path.write_text(content, encoding="utf-8", newline="")
        return str(path)

    def dictionary(self, kind, minima, lines):
        """The file of a dictionary text with these minima and lines."""
        return self.file("words.txt", f"hyphenation 1 {kind}\nlanguage x\nminima {minima}\n{lines}\n")

    def writes(self, shows, wanted, program, *words, given=b"", status=0, says=""):
        """Checks that a run writes this text, ends with this status and says this."""
        words = [str(self.programs / program), *words]
        try:
            found = subprocess.run(words, input=given, capture_output=True, check=False, timeout=SECONDS)
        except subprocess.TimeoutExpired:
            self.check(False, shows, "it took more than a minute")
            return
        ends = (found.returncode, found.stderr.decode(errors="replace"), found.stdout)
        fine = ends == (status, says, wanted.encode())
        self.check(fine, shows, found.returncode, ends[1][:200], f"{len(ends[2])} bytes and not {len(wanted.encode())}:", ends[2][:80])


def long_words(runs):
    """Each place of a long word has its value and its break."""
    pairs = [
        ("plain breaks", "standard", "p a1b", "ab", "a=b"),
        ("plain breaks of the other kind", "extended", "p a1b", "ab", "a=b"),
        ("changed breaks", "extended", "p a1b 1,1,1,1,xy", "ab", "x=y"),
        ("each range that is kept rules out the next place", "extended", "p a1a 1,1,1,1,xy", "aa", "x=y"),
    ]
    for shows, kind, line, pair, broken in pairs:
        path = runs.dictionary(kind, "1 1", line)
        runs.writes(f"10,000 bytes: {shows}", broken * 5_000, "hyphenate", kind, "x", path, "=", given=pair.encode() * 5_000)
    # each dot begins a key of ten dots and a letter, or continues it
    dots = "." * 100_000
    for kind in KINDS:
        path = runs.dictionary(kind, "0 0", "p a1b")
        runs.writes(f"values of 10,000 bytes, {kind}", "1 0 " * 4_999 + "1\n", "hyphenate", "score", kind, "x", path, "ab" * 5_000)
        path = runs.dictionary(kind, "0 0", "p ..........1a")
        runs.writes(f"values of 100,000 dots, {kind}", "0 " * 99_998 + "0\n", "hyphenate", "score", kind, "x", path, dots)
        facts = "".join(f"\t{place}:0" for place in range(1, 100_000))
        path = runs.dictionary(kind, "255 255", f"e {dots} 50000")
        runs.writes(f"a listed break of 100,000 dots, {kind}", f"word\t{dots}\nfolded\t{dots}\nscore{facts}\nminima\t255\t255\n"
                    f"bounds\t255\t99745\nsoft-hyphens\nexception\t50000\ndecided-by\texception\nbreaks\t50000\n"
                    f"hyphenated\t{dots[:50_000]}-{dots[50_000:]}\n", "hyphenate-explain", "--plain", path, given=dots.encode())
        # each letter has two bytes and its small letter one, so that each shifts the places after it
        path = runs.dictionary(kind, "1 1", "p i1i")
        runs.writes(f"a shift at each of 20,000 letters, {kind}", "=".join("\u0130" * 20_000), "hyphenate", kind, "x", path, "=",
                    given="\u0130".encode() * 20_000)


def long_keys(runs):
    """Keys of 1,000 and 10,000 letters are found in words of as many letters or one more. One of 20,000 has its changes."""
    for kind, letters, more in itertools.product(KINDS, (1_000, 10_000), (-1, 0, 1)):
        half = letters // 2
        path = runs.dictionary(kind, "1 1", f"p {'a' * half}1{'a' * half}")
        wanted = ("a" * (letters - 1), f"{'a' * half}={'a' * half}", f"{'a' * half}=a={'a' * half}")[more + 1]
        runs.writes(f"a key of {letters} letters in a word of {letters + more}, {kind}", wanted, "hyphenate", kind, "x", path, "=",
                    given=b"a" * (letters + more))
    letters = 20_000
    key = "p 1" + "a1" * letters
    changes = "".join(f" {place},0,0,1,b" for place in range(letters + 1))
    path = runs.dictionary("extended", "2 2", key + changes)
    runs.writes("each of 20,000 values has its change", "a" + "ab=" * (letters - 3) + "aa", "hyphenate", "extended", "x", path, "=",
                given=b"a" * letters)
    path = runs.dictionary("extended", "2 2", key + "a" + changes + f" {letters + 1},0,0,1,b")
    runs.writes("a change after many values has none", "", "hyphenate", "extended", "x", path, "=", status=3,
                says=f"hyphenate: {path}: line 4: bad change\n")


def long_texts(runs):
    """Texts of many or of long lines are read, edited and written as they stand."""
    numbered = [f"e word{number:06} 4" for number in range(80_000)]
    for kind in KINDS:
        path = runs.dictionary(kind, "1 1", "\n".join(numbered))
        runs.check(pathlib.Path(path).stat().st_size > 1_000_000, "a dictionary has more than 1,000,000 bytes")
        runs.writes(f"80,000 exceptions, {kind}", "word=000000 Word=079999 word080000", "hyphenate", kind, "x", path, "=",
                    given=b"word000000 Word079999 word080000")
    head = "hyphenation 1 standard\nlanguage en-us\nminima 2 3\n"
    kept = [
        ("ten keys of 10,000 letters, with 100,000 nodes", "".join(f"p {letter * 10_000}1\n" for letter in "abcdefghij")),
        ("20,000 exceptions", "".join(line + "\n" for line in numbered[:20_000])),
        ("a word of 5,002 letters with an escape", f"e a\\s{'a' * 5_000} 2\n"),
    ]
    for shows, lines in kept:
        runs.writes(shows, head + lines, "hyphenate-canonical", given=(head + lines).encode())
    runs.writes("a comment of 3,000,000 bytes in one line", head, "hyphenate-canonical", given=(head + "#xyz " * 600_000 + "\n").encode())
    for kind, letters in itertools.product(KINDS, (300, 5_000)):
        word, path = "a" * letters, runs.dictionary(kind, "2 2", "")
        runs.writes(f"an edit of {letters} letters, {kind}", f"aa={word[2:]}", "hyphenate", kind, "x", path, "=", f"+{word} 2",
                    given=word.encode())
    words = [head + "".join(letters) for head in ("am", "an") for letters in itertools.product(string.ascii_lowercase, repeat=3)]
    runs.check(len(words) == 35_152, "a plain file has 35,152 words")
    path = runs.file("long.hyp.txt", "".join(f"{word[:2]}-{word[2:]}\n" for word in words))
    runs.writes("a plain file of exceptions is converted", head + "".join(f"e {word} 2\n" for word in words), "hyphenate-convert",
                "standard", "en-us", "2", "3", path)


def short_texts(runs):
    """Each beginning of a text is refused where it ends, and each text of one byte at its first line."""
    texts = [(f"the first {length} bytes", SMALLEST[:length], cause) for length, cause in enumerate(BEGINNINGS)]
    texts += [(f"byte {byte}", bytes([byte]), "h" if byte < 128 else "n") for byte in range(256)]
    runs.check(len(texts) == len(SMALLEST) + 1 + 256, "each beginning and each byte has a text")
    for shows, text, cause in texts:
        if cause == ".":
            wanted = b"\n".join(text.split(b"\n")[:3]).decode() + "\n"
            line = text.split(b"\n")[3:] or [b""]
            wanted += (line[0].decode() + "\n") if line[0] else ""
            runs.writes(shows, wanted, "hyphenate-canonical", given=text)
        else:
            runs.writes(shows, "", "hyphenate-canonical", given=text, status=3,
                        says=f"hyphenate-canonical: standard input: {CAUSES[cause]}\n")


def million_bytes(runs):
    """A text is a piece, repeated to 15,000 or a million bytes, and so is its result."""
    american = runs.dictionary("standard", "2 3", "p .fi2\np i2r\np r2k\np r5kin\np k1in\np k2in.")
    doubled = runs.file("doubled.txt", "hyphenation 1 extended\nlanguage hu\nminima 2 2\ne asszonnyal 2,1,2,2,szsz 6,1,2,2,nyny\n")
    rows = [
        ("is hyphenated", ["hyphenate", "standard", "x", american, "-"], "Firkin, firkins. ", "Fir-kin, fir-k-ins. "),
        ("is hyphenated with changes", ["hyphenate", "extended", "hu", doubled, "-"], "Az asszonnyal. ", "Az asz-szony-nyal. "),
        # two words have eight characters with the space after the second
        ("is filled", ["hyphenate", "fill", "x", american, "7"], "fir ", "fir \n"),
        ("is divided into full lines", ["hyphenate-lines", "--width", "5", american], "aa bb ", "aa bb\n"),
        ("is divided into even lines", ["hyphenate-lines", "--even", "--width", "5", american], "aa bb ", "aa bb\n"),
    ]
    for (shows, words, piece, result), size in itertools.product(rows, (15_000, 1_000_000)):
        times = -(-size // len(piece))
        runs.writes(f"a text of {size} bytes {shows}", result * times, *words, given=piece.encode() * times)


def memory(runs):
    """Lines and paragraphs have little more room than they need: a byte of a text takes at most fifty bytes."""
    path = runs.dictionary("standard", "2 3", "")

    def peak(text, *options):
        """The most memory of a run over a text, in bytes, as the system reports it; 0 if the run fails."""
        given = runs.folder / "given"
        given.write_bytes(text)
        words = [str(runs.programs / "hyphenate-lines"), *options, path]
        with given.open("rb") as text, subprocess.Popen(words, stdin=text, stdout=subprocess.DEVNULL) as ran:
            _, status, usage = os.wait4(ran.pid, 0)
            ran.returncode = os.waitstatus_to_exitcode(status)
        return usage.ru_maxrss * 1024 if ran.returncode == 0 else 0

    small = peak(b"aa bb\n")
    texts = [("lines of 5 columns", "5", b"aa bb "), ("lines of 72 columns", "72", b"aa bb ")]
    texts += [(f"paragraphs of {size} bytes", "72", b"a" * size + b"\n\n") for size in (60, 300, 5_000)]
    for (shows, width, piece), aim in itertools.product(texts, ([], ["--even"])):
        text = piece * (1_000_000 // len(piece))
        found = peak(text, *aim, "--width", width)
        runs.check(0 < found <= small + 50 * len(text), shows, *aim, f"{found} bytes of memory for {len(text)}")


# Texts, and the places in bytes where a line of each may end.
DIVIDED = [
    ("I know noble accents", [2, 7, 9, 13, 15, 20]),
    ("a  b   noble", [2, 3, 5, 6, 7, 9, 12]),
    ("\u00adri\u00adbo nu", [4, 9, 11]),
    ("noble accents lucid inescapable noble", [2, 6, 8, 14, 16, 20, 22, 32, 34, 37]),
    ("lucid größe lucid größe noble lucid", [2, 6, 10, 14, 16, 20, 24, 28, 30, 34, 36, 39]),
]


def divisions(runs):
    """At each width at which a division fits, no division into lines has fewer of them."""
    path = runs.dictionary("standard", "2 2", "e noble 2\ne accents 2\ne lucid 2\ne inescapable 2\ne größe 4")
    for text, cuts in DIVIDED:
        whole = text.encode()
        chosen = itertools.chain.from_iterable(itertools.combinations(cuts[:-1], count) for count in range(len(cuts)))
        every = []
        for ends in chosen:
            lines = [whole[start:end].decode() for start, end in zip([0, *ends], [*ends, len(whole)])]
            every.append([line if line.endswith(" ") else line + "-" for line in lines[:-1]] + lines[-1:])
        for width in range(len(text) + 1):
            fit = [lines for lines in every if all(len(line) <= width for line in lines)]
            if fit:
                words = [str(runs.programs / "hyphenate"), "fill", "x", path, str(width)]
                found = subprocess.run(words, input=whole, stdout=subprocess.PIPE, check=False).stdout.decode()
                lines = found.removesuffix("\n").split("\n")
                runs.check(lines in fit and len(lines) == min(map(len, fit)), f"{text}, in {width} columns:", lines)


def main():
    runs = Runs(sys.argv[1], sys.argv[2])
    for part in (long_words, long_keys, long_texts, short_texts, million_bytes, memory, divisions):
        part(runs)
    runs.check(runs.passed + runs.failed == CHECKS, "there are", runs.passed + runs.failed, "checks, and not", CHECKS)
    print(f"{runs.passed} passed, {runs.failed} failed")
    sys.exit(1 if runs.failed else 0)


main()
