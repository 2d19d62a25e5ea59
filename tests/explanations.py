"""Compares hyphenate-explain with an implementation of its own, over random dictionaries and words. tests/explain runs it, and
random_dictionaries.py takes its dictionaries and facts.

Usage: explanations.py PROGRAM FOLDER. The last line is `N passed, M failed`.

Each dictionary is asked about many words at once, some of them in NFD, as lines for programs and as pictures. The lines
must be exactly those of this script, which looks each text between two places up among the keys. Some words and keys have
control characters, which lines have escaped. Each letter of a picture must be below the same letter of the frame. Without
spaces a picture must have the texts of this script. A document in SVG must be XML with the rows of each word and an empty
one. Its letters and values must be at the columns and in the classes of this script.
"""

import pathlib
import random
import subprocess
import sys
import unicodedata
import xml.etree.ElementTree

DICTIONARIES = 60
WORDS = 40
# Capitals whose folding takes as many bytes, fewer and more.
FOLDED = {"A": "a", "B": "b", "É": "é", "İ": "i", "ẞ": "ß", "Ⱥ": "ⱥ"}
# The same, and the one that a drawn word may be composed to.
SMALL = {**FOLDED, "Á": "á"}
LETTERS = "aabbciéßⱥ"
SOFT_HYPHEN = "\u00ad"
# Letters only for lines: what a field has escaped, and neighbours of that.
CONTROLS = "\t\n\r\\\x01\x1f\x7f\x80\x85\x9f\u00a0\u0105tnru{"
SHORT_ESCAPES = {"\t": "\\t", "\n": "\\n", "\r": "\\r", "\\": "\\\\"}
CONTROL_DICTIONARIES = 30
# Letters only for drawings: a wide one, a mark without columns, and what XML escapes or forbids.
DRAWN = "の\u0301<>&\"'\x01\x0b\ufffe\uffff"
SVG = "{http://www.w3.org/2000/svg}"


def size(text):
    return len(text.encode())


def fold(word):
    return "".join(SMALL.get(c, c) for c in word)


def escaped(text):
    """A text in a field of a line."""
    return "".join(SHORT_ESCAPES.get(c) or ("\\u{%x}" % ord(c) if unicodedata.category(c) == "Cc" else c) for c in text)


def token(text):
    """A text in a dictionary text. A brace is escaped only in patterns."""
    return "\\e" if not text else text.replace("\\", "\\\\").replace("\n", "\\n").replace("\r", "\\r")


def explained(dictionary, words):
    """The facts that the program shows of words: those of their NFC."""
    return [Facts(dictionary, unicodedata.normalize("NFC", word)) for word in words]


def random_text(random_of, letters, least, most):
    return "".join(random_of.choice(letters) for _ in range(random_of.randint(least, most)))


def places_of(text):
    """The places before each character, and the end."""
    places = [0]
    for c in text:
        places.append(places[-1] + size(c))
    return places


class Dictionary:
    """A random dictionary of either kind."""

    version = 2

    def __init__(self, random_of, kind, letters=LETTERS):
        self.kind = kind
        self.letters = letters
        self.minima = (random_of.randint(0, 3), random_of.randint(0, 3))
        self.patterns = {}
        self.exceptions = {}
        for _ in range(random_of.randint(1, 40)):
            key = random_text(random_of, letters, 1, 4)
            key = random_of.choice(["", "", ".", "."]) + key + random_of.choice(["", "", "", "."])
            places = [place for place in places_of(key) if random_of.random() < 0.4]
            entries = [(place, random_of.choice([1, 1, 2, 3, 4, 5, 9, 10, 255]), self.change(random_of, key, place)) for place in places]
            self.patterns[key.encode()] = entries
        for _ in range(random_of.randint(0, 6)):
            word = random_text(random_of, letters, 1, 7)
            places = [place for place in places_of(word) if random_of.random() < 0.4]
            self.exceptions[word] = [(place, self.change(random_of, word, place)) for place in places]

    def change(self, random_of, text, place):
        if self.kind == "standard" or random_of.random() < 0.6:
            return None
        places = places_of(text)
        begin = random_of.choice([p for p in places if p <= place])
        end = random_of.choice([p for p in places if p >= place])
        substitution = random_text(random_of, self.letters, 1, 3)
        return (place - begin, end - place, random_of.choice(places_of(substitution)), substitution)

    def text(self):
        lines = [f"hyphenation {self.version} {self.kind}", "language x", "minima %d %d" % self.minima]
        for key, entries in self.patterns.items():
            values = {place: value for place, value, _ in entries}
            written, place = "", 0
            for c in [*key.decode(), ""]:
                value = values.get(place)
                written += "" if value is None else str(value) if value < 10 else "{%d}" % value
                written += "\\{" if c == "{" else c and token(c)
                place += size(c)
            changes = "".join(" %d,%s" % (p, change_token(change)) for p, _, change in entries if change)
            lines.append(f"p {written}{changes}")
        for word, listed in self.exceptions.items():
            lines.append(f"e {listing(word, listed)}")
        return "\n".join(lines) + "\n"


def listing(word, listed):
    """A word with its breaks, as a line of an exception or an edit has them."""
    return token(word) + "".join(" %d,%s" % (p, change_token(change)) if change else f" {p}" for p, change in listed)


def change_token(change):
    return "%d,%d,%d,%s" % (*change[:3], token(change[3]))


def change_text(change):
    return "" if change is None else ":%d,%d,%d,%s" % (*change[:3], escaped(change[3]))


class Facts:
    """The facts about a word's breaks, found by looking each text between two places up."""

    def __init__(self, dictionary, word):
        self.minima = dictionary.minima
        self.word = word
        self.folded = fold(word)
        self.framed = f".{self.folded}.".encode()
        longest = max(map(len, dictionary.patterns), default=0)
        self.rows = [(start, end, dictionary.patterns[self.framed[start:end]]) for start in range(len(self.framed))
                     for end in range(start + 1, min(start + longest, len(self.framed)) + 1)
                     if self.framed[start:end] in dictionary.patterns]
        length = size(self.folded)
        self.scores = [(0, None)] * max(length - 1, 0)
        for start, _, entries in self.rows:
            for place, value, change in entries:
                at = start + place - 2
                if 0 <= at < len(self.scores) and self.scores[at][0] < value:
                    self.scores[at] = (value, change)
        left, right = self.minima
        characters = len(self.folded)
        places = places_of(self.folded)
        self.bounds = None
        if left + right <= characters and left < characters:
            self.bounds = (places[left], places[characters - max(right, 1)])
        self.soft_hyphens = [place for place, c in zip(places_of(word), word) if c == SOFT_HYPHEN]
        self.listed = dictionary.exceptions.get(self.folded)
        self.decide()

    def decide(self):
        if self.soft_hyphens:
            self.decision = "soft-hyphens"
            self.breaks = [(place, None) for place in self.soft_hyphens]
            return
        if self.bounds is None:
            self.decision, found = "minima", []
        elif self.listed is not None:
            self.decision, found = "exception", self.listed
        else:
            self.decision = "patterns"
            found = [(index + 1, change) for index, (value, change) in enumerate(self.scores) if value % 2 == 1]
        found = [b for b in found if self.bounds[0] <= b[0] <= self.bounds[1]]
        self.breaks = []
        folded_places, places = places_of(self.folded), places_of(self.word)
        moved = [place for place, c, d in zip(folded_places, self.folded, self.word) if size(c) != size(d)]
        last = 0
        for place, change in found:
            begin, end = (place - change[0], place + change[1]) if change else (place, place)
            if begin < 0 or end > size(self.folded) or any(begin <= at < end for at in moved) or begin < last:
                continue
            last = end
            self.breaks.append((places[folded_places.index(place)], change))

    def hyphenated(self):
        text, start, made = self.word.encode(), 0, b""
        for place, change in self.breaks:
            left, right, breakpoint, substitution = change or (0, 0, 0, "")
            substitution = substitution.encode()
            made += text[start:place - left] + substitution[:breakpoint] + b"-" + substitution[breakpoint:]
            start = place + right
        return (made + text[start:]).decode()

    def lines(self):
        yield "word", escaped(self.word)
        yield "folded", escaped(self.folded)
        for start, end, entries in self.rows:
            values = ["%d:%d%s" % (place, value, change_text(change)) for place, value, change in entries]
            yield "pattern", start, end - start, escaped(self.framed[start:end].decode()), *values
        yield "score", *("%d:%d%s" % (i + 1, value, change_text(change)) for i, (value, change) in enumerate(self.scores))
        yield "minima", *self.minima
        yield "bounds", *(self.bounds or ())
        yield "soft-hyphens", *self.soft_hyphens
        if self.listed is not None:
            yield "exception", *("%d%s" % (place, change_text(change)) for place, change in self.listed)
        yield "decided-by", self.decision
        yield "breaks", *(place for place, _ in self.breaks)
        yield "hyphenated", escaped(self.hyphenated())

    def plain(self):
        return "".join("\t".join(str(field) for field in line) + "\n" for line in self.lines())

    def note(self, value, change):
        if change is None:
            return ""
        left, right, breakpoint, substitution = change
        substitution = substitution.encode()
        halves = substitution[:breakpoint].decode() + "-" + substitution[breakpoint:].decode()
        return f"  {value}: {halves} for {left}+{right} bytes"

    def letters(self, text, values):
        made, place = "", 0
        for c in [*text, ""]:
            made += str(values.get(place, "")) + c
            place += size(c)
        return made

    def picture(self):
        made = self.framed.decode() + "\n"
        for start, end, entries in self.rows:
            made += self.letters(self.framed[start:end].decode(), {place: value for place, value, _ in entries})
            made += "".join(self.note(value, change) for _, value, change in entries) + "\n"
        made += self.letters(self.folded, {i + 1: value for i, (value, _) in enumerate(self.scores) if i + 1 in places_of(self.folded)})
        made += "  the greatest value of each place" + "".join(self.note(*score) for score in self.scores) + "\n"
        minima = "%d and %d" % self.minima
        made += self.hyphenated() + "  " + {
            "soft-hyphens": "its own soft hyphens, whatever patterns and minima say",
            "minima": f"too few characters for the minima {minima}",
            "exception": f"the breaks of an exception within the minima {minima}",
            "patterns": f"odd values within the minima {minima}",
        }[self.decision] + "\n"
        return made


def in_columns(line):
    """The letters of a line, each with the column in which it begins. A soft hyphen takes none, and joins the letter before."""
    column = 0
    for c in line:
        if c not in (" ", SOFT_HYPHEN):
            yield column, c
        column += c != SOFT_HYPHEN


def misplaced(facts, picture):
    """The rows of a picture with a letter that is not below itself. Digits are values; the words have none."""
    lines = picture.split("\n")

    def letters_of(start, text):
        return [(start + place, c) for place, c in zip(places_of(text), text) if c != SOFT_HYPHEN]

    columns = [column for column, _ in in_columns(lines[0])]
    first = {place: column for (place, _), column in zip(letters_of(0, facts.framed.decode()), columns)}
    for (start, end, _), line in zip(facts.rows, lines[1:]):
        letters = [(column, c) for column, c in in_columns(line) if not c.isdigit()]
        for (column, c), (place, wanted) in zip(letters, letters_of(start, facts.framed[start:end].decode())):
            if c != wanted or column != first[place]:
                yield line
                break


def columns_of(c):
    if c == SOFT_HYPHEN or unicodedata.combining(c):
        return 0
    # (Python takes noncharacters for wide ones)
    return 2 if unicodedata.east_asian_width(c) in "WF" and c not in "\ufffe\uffff" else 1


def shown(text):
    return "".join("\ufffd" if c < " " or c in "\ufffe\uffff" else c for c in text)


class Drawing:
    """The rows of a drawing: for each the pieces, each with its class, its begin in pixels, and its text."""

    def __init__(self, facts):
        self.facts = facts
        framed = facts.framed.decode()
        self.values = {place: 1 for place in places_of(framed)}
        for start, _, entries in facts.rows:
            for place, value, _ in entries:
                self.values[start + place] = max(self.values[start + place], len(str(value)))
        self.letter = {}
        column = 0
        for place, c in zip(places_of(framed), [*framed, ""]):
            self.letter[place] = column + self.values[place]
            column += (self.values[place] + columns_of(c)) if c else 0
        self.columns = column

    def letters(self, start, text, values):
        """The pieces of a text at a place of the frame, with values by its places, each with its class."""
        place, made = 0, []
        for c in [*text, ""]:
            at = self.letter[start + place]
            if place in values:
                kind, value = values[place]
                made.append((kind, str(12 * (at + 1 - len(str(value)))), str(value)))
            if c and columns_of(c) == 0 and place > 0:
                made[-1] = (*made[-1][:2], made[-1][2] + shown(c))
            elif c:
                made.append((None, str(12 * (at + 1)), shown(c)))
            place += size(c)
        return made

    def note(self, column, text):
        return [("note", str(12 * (column + 1)), shown(text))] if text else []

    def note_column(self, width):
        return max(self.columns + 2, self.letter[1] + width) + 2

    def kind(self, value, at):
        scores = self.facts.scores
        boundary = at in places_of(self.facts.folded)
        wins = boundary and 0 < at <= len(scores) and scores[at - 1][0] == value
        return ("odd" if value % 2 else "even") + (" wins" if wins else "")

    def rows(self):
        facts = self.facts
        yield [*self.letters(0, facts.framed.decode(), {})]
        for start, end, entries in facts.rows:
            values = {place: (self.kind(value, start + place - 1), value) for place, value, _ in entries}
            notes = "".join(facts.note(value, change) for _, value, change in entries)
            yield [*self.letters(start, facts.framed[start:end].decode(), values), *self.note(self.letter[end], notes)]
        places = places_of(facts.folded)
        values = {i + 1: (self.kind(value, 0), value) for i, (value, _) in enumerate(facts.scores) if i + 1 in places}
        notes = "the greatest value of each place" + "".join(facts.note(*score) for score in facts.scores)
        yield [*self.letters(1, facts.folded, values), *self.note(self.note_column(0), notes)]
        decided = facts.picture().rsplit("  ", 1)[1].rstrip("\n")
        hyphenated = facts.hyphenated()
        noted = self.note(self.note_column(sum(columns_of(c) for c in hyphenated)), decided)
        yield [("word", str(12 * (self.letter[1] + 1)), shown(hyphenated)), *noted]
        yield []


def undrawn(all_facts, document):
    """The faults of a document in SVG."""
    root = xml.etree.ElementTree.fromstring(document)
    if root.tag != SVG + "svg" or root.find(SVG + "title") is None:
        yield "not a document with a title"
    _, _, width, height = map(int, root.get("viewBox").split())
    found = []
    for span in root.find(SVG + "text"):
        if span.get("dy"):
            found.append([])
            if (span.attrib, span.text) != ({"x": "0", "dy": "24"}, "\u00a0"):
                yield "a begin of a row", span.attrib, span.text
        else:
            found[-1].append((span.get("class"), span.get("x"), span.text or ""))
            if int(span.get("x")) + 12 * sum(map(columns_of, span.text or "")) > width:
                yield "a text is not inside", span.text
    wanted = [(facts.word, row) for facts in all_facts for row in Drawing(facts).rows()]
    if len(found) != len(wanted) or height != 24 * len(wanted):
        yield len(found), "rows, and not", len(wanted), "height", height
    yield from ((word, row, wanted) for row, (word, wanted) in zip(found, wanted) if row != wanted)


def main():
    program, folder = sys.argv[1], pathlib.Path(sys.argv[2])
    passed = failed = 0

    def check(fine, *said):
        nonlocal passed, failed
        passed, failed = passed + fine, failed + (not fine)
        if not fine:
            print("WRONG:", *said)

    def run(number, path, *options, words):
        found = subprocess.run([program, *options, path, "--", *words], capture_output=True, check=False)
        check(found.returncode == 0, number, options, found.returncode, found.stderr.decode())
        return found.stdout.decode()

    def check_lines(number, path, all_facts, words):
        plain = run(number, path, "--plain", words=words)
        wanted = "\n".join(facts.plain() for facts in all_facts)
        check(plain == wanted, number, "lines:", *(pair for pair in zip(plain.split("\n"), wanted.split("\n")) if pair[0] != pair[1]))

    for number in range(CONTROL_DICTIONARIES):
        random_of = random.Random(f"controls {number}")
        letters = "abci" + CONTROLS
        dictionary = Dictionary(random_of, random_of.choice(["standard", "extended"]), letters)
        path = folder / f"controls-{number}.txt"
        path.write_text(dictionary.text())
        words = [random_text(random_of, letters, 1, 9) for _ in range(WORDS)] + list(dictionary.exceptions)
        check_lines(number, path, explained(dictionary, words), words)

    for number in range(DICTIONARIES):
        random_of = random.Random(number)
        dictionary = Dictionary(random_of, random_of.choice(["standard", "extended"]))
        path = folder / f"{number}.txt"
        path.write_text(dictionary.text())
        letters = LETTERS + "".join(FOLDED)
        words = [random_text(random_of, letters, 0, 9) for _ in range(WORDS)]
        words += [random_text(random_of, letters + SOFT_HYPHEN, 1, 9) for _ in range(4)]
        words += list(dictionary.exceptions)
        words += [unicodedata.normalize("NFD", word) for word in words if not unicodedata.is_normalized("NFD", word)]
        all_facts = explained(dictionary, words)

        check_lines(number, path, all_facts, words)
        pictures = run(number, path, words=words).split("\n\n")
        check(len(pictures) == len(words), number, len(pictures), "pictures, and not", len(words))
        for facts, picture in zip(all_facts, pictures):
            spaceless = picture.strip("\n").replace(" ", "")
            check(spaceless == facts.picture().strip("\n").replace(" ", ""), number, repr(picture), "and not", repr(facts.picture()))
            for line in misplaced(facts, picture):
                check(False, number, facts.word, "a letter is not below itself:", line)
        drawn = words + [random_text(random_of, letters + DRAWN, 1, 9) for _ in range(WORDS)]
        wrong = [*undrawn(explained(dictionary, drawn), run(number, path, "--svg", words=drawn))]
        check(not wrong, number, "drawing:", *wrong[:3])
    check(passed > DICTIONARIES * WORDS, "too few checks")
    print(f"{passed} passed, {failed} failed")
    sys.exit(1 if failed else 0)


if __name__ == "__main__":
    main()
