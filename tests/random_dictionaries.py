"""Compares breaks and values with those of explanations.py, over small random dictionaries. tests/random-dictionaries runs it.

Usage: random_dictionaries.py HYPHENATE EXPLAIN FOLDER. The last line is `N passed, M failed`.

For each dictionary, of either kind and version, hyphenate-explain writes the values, the listed breaks and the breaks of some
words. Then hyphenate breaks a text by the dictionary after some edits of its exceptions. A third of the dictionaries have a
pattern by which they can have no table. Each word of both is compared. The last checks are that there were enough of each sort.
"""

import collections
import pathlib
import random
import subprocess
import sys

from explanations import FOLDED, SOFT_HYPHEN, Dictionary, Facts, listing, places_of, random_text, size

DICTIONARIES = 4000
# Few letters, so that keys occur. Their capitals take as many bytes, fewer and more.
LETTERS = "abißéⱥ"
CAPITALS = {small: capital for capital, small in FOLDED.items()}
# A value that is that many bytes before the end of its key, or fewer, has a place in a table of steps.
NEAR = 15
# The least number of what is counted.
LEAST = {
    "words of texts": 20_000,
    "words that are explained": 20_000,
    "dictionaries of version 1": 1_000,
    "dictionaries of version 2": 500,
    "dictionaries with a table": 1_000,
    "dictionaries without a table": 1_000,
    "exceptions that were added": 2_000,
    "exceptions that were added with a change": 500,
    "exceptions that were removed": 200,
    "words that are broken": 10_000,
    "words that are broken by an added exception": 500,
    "words that are broken with a change": 1_000,
    "words of 62 to 67 bytes that are broken by a table": 500,
    "words of 62 to 67 bytes that are broken without a table": 100,
    "words that are broken beside a letter of another length": 500,
    "words that are broken at soft hyphens": 200,
    "words whose value is above 127": 500,
}


class Small(Dictionary):
    """A dictionary of few patterns and exceptions. One that is not near has a value far before the end of its key."""

    def __init__(self, random_of, is_near):
        self.kind = random_of.choice(["standard", "extended"])
        self.minima = (random_of.randint(0, 2), random_of.randint(0, 2))
        self.patterns, self.exceptions, self.added = {}, {}, set()
        greatest = random_of.choice([9, 9, 9, 255])
        for _ in range(random_of.randint(0, 12)):
            key = random_text(random_of, LETTERS + "aabb.", 1, 4)
            if key.strip("."):
                self.patterns[key.encode()] = [
                    (place, random_of.randint(1, greatest), change) for place, change in self.listed(random_of, key)]
        if not is_near:
            key = word_of_bytes(random_of, random_of.randint(NEAR + 1, 20)).lower().encode()
            self.patterns[key] = [(0, random_of.randint(1, greatest), None)]
        for _ in range(random_of.randint(0, 3)):
            word = random_text(random_of, LETTERS + "aa", 0, 5)
            self.exceptions[word] = self.listed(random_of, word)
        self.version = 1 if self.greatest() <= 9 else 2

    def greatest(self):
        """The greatest value, or 0."""
        return max((value for entries in self.patterns.values() for _, value, _ in entries), default=0)

    def has_table(self):
        """Whether it has a table of steps: each value is near the end of its key, and no rank is above 255."""
        far = any(len(key) - place > NEAR for key, entries in self.patterns.items() for place, _, _ in entries)
        return not far and (self.kind == "standard" or self.greatest() <= 127)

    def listed(self, random_of, text):
        """Ascending places of a text, each with a change or none."""
        return [(place, self.change(random_of, text, place)) for place in places_of(text) if random_of.random() < 0.5]

    def change(self, random_of, text, place):
        if self.kind == "standard" or random_of.random() < 0.5:
            return None
        places = places_of(text)
        at = places.index(place)
        begin, end = random_of.choice(places[max(at - 1, 0):at + 1]), random_of.choice(places[at:at + 2])
        substitution = random_of.choice(["", "x", "xy", "é,"])
        return (place - begin, end - place, random_of.choice([0, size(substitution)]), substitution)

    def edit(self, random_of, word, count):
        """Adds a word to the exceptions, or removes it or a word that is listed, and returns the edit."""
        if random_of.random() < 0.3:
            if self.exceptions and random_of.random() < 0.5:
                word = random_of.choice(list(self.exceptions))
            count["exceptions that were removed"] += word in self.exceptions
            self.exceptions.pop(word, None)
            self.added.discard(word)
            return "-" + listing(word, [])
        listed = self.listed(random_of, word)
        self.exceptions[word] = listed
        self.added.add(word)
        count["exceptions that were added"] += 1
        count["exceptions that were added with a change"] += any(change for _, change in listed)
        return "+" + listing(word, listed)


def capitalized(random_of, word):
    return "".join(CAPITALS.get(c, c) if random_of.random() < 0.3 else c for c in word)


def word_of_bytes(random_of, bytes_of_word):
    """A word of so many bytes, in half of the cases with capitals and letters of several bytes."""
    letters = random_of.choice(["abi", LETTERS + "ab" + "".join(FOLDED)])
    word = ""
    while size(word) < bytes_of_word:
        c = random_of.choice(letters)
        word += c if size(word + c) <= bytes_of_word else "a"
    return word


def word_near(random_of, dictionary):
    """A word, now and then one that is listed, with capitals, dots or soft hyphens."""
    if dictionary.exceptions and random_of.random() < 0.3:
        return capitalized(random_of, random_of.choice(list(dictionary.exceptions)))
    letters = random_of.choice([LETTERS + "aabb" + "".join(FOLDED), LETTERS + "aabb.", "ab" + SOFT_HYPHEN])
    return random_text(random_of, letters, 0, 8)


def is_one_piece(word):
    """Whether hyphenate takes a word between spaces for one piece: it has letters at both ends, and no two dots in a row."""
    return word.strip("." + SOFT_HYPHEN) == word != "" and ".." not in word.replace(SOFT_HYPHEN, "")


def note(count, facts, added, has_table):
    """Counts what a word of a text shows, where these exceptions were added, and the dictionary has a table or not."""
    count["words of texts"] += 1
    if not facts.breaks:
        return
    count["words that are broken"] += 1
    count["words that are broken by an added exception"] += facts.decision == "exception" and facts.folded in added
    count["words that are broken with a change"] += any(change for _, change in facts.breaks)
    if size(facts.word) >= 62:
        count["words of 62 to 67 bytes that are broken " + ("by a table" if has_table else "without a table")] += 1
    count["words that are broken beside a letter of another length"] += any(size(c) != size(FOLDED.get(c, c)) for c in facts.word)
    count["words that are broken at soft hyphens"] += facts.decision == "soft-hyphens"


def edits_and_words(random_of, dictionary, number, count):
    """Edits that were made, and the words of a text after them. In every fourth dictionary these have 62 to 67 bytes."""
    if number % 8 < 2:
        words = [word_of_bytes(random_of, bytes_of_word) for bytes_of_word in range(62, 68)]
        return [dictionary.edit(random_of, word, count) for word in words[2:4]], words
    edits = [dictionary.edit(random_of, word_near(random_of, dictionary), count) for _ in range(2)]
    words = [word_near(random_of, dictionary) for _ in range(16)]
    words += [capitalized(random_of, word) for word in dictionary.added]
    return edits, [word for word in words if is_one_piece(word)]


def main():
    hyphenate, explain, folder = sys.argv[1], sys.argv[2], pathlib.Path(sys.argv[3])
    passed = failed = 0
    count = collections.Counter()

    def check(fine, *said):
        nonlocal passed, failed
        passed, failed = passed + fine, failed + (not fine)
        if not fine:
            print("WRONG:", *said)

    def run(number, text, *words):
        found = subprocess.run(words, input=text.encode(), capture_output=True, check=False)
        check(found.returncode == 0, number, words, found.returncode, found.stderr.decode())
        return found.stdout.decode()

    path = folder / "small.txt"
    for number in range(DICTIONARIES):
        random_of = random.Random(f"small {number}")
        dictionary = Small(random_of, number % 3 > 0)
        path.write_text(dictionary.text())
        count[f"dictionaries of version {dictionary.version}"] += 1

        words = [word_near(random_of, dictionary) for _ in range(8)]
        all_facts = [Facts(dictionary, word) for word in words]
        wanted = "\n".join(facts.plain() for facts in all_facts)
        plain = run(number, "", explain, "--plain", path, "--", *words)
        check(plain == wanted, number, *(pair for pair in zip(plain.split("\n"), wanted.split("\n")) if pair[0] != pair[1]))
        count["words that are explained"] += len(words)
        count["words whose value is above 127"] += sum(any(value > 127 for value, _ in facts.scores) for facts in all_facts)

        edits, words = edits_and_words(random_of, dictionary, number, count)
        text = " ".join(words)
        has_table = dictionary.has_table()
        count["dictionaries with a table" if has_table else "dictionaries without a table"] += 1
        marked = run(number, text, hyphenate, dictionary.kind, "x", path, "-", *edits).split(" ")
        facts_of = {word: Facts(dictionary, word) for word in {*text.split(" ")}}
        wanted = [facts_of[word].hyphenated() for word in text.split(" ")]
        check(marked == wanted, number, edits, *(pair for pair in zip(marked, wanted) if pair[0] != pair[1]))
        for facts in facts_of.values():
            note(count, facts, dictionary.added, has_table)

    for what, least in LEAST.items():
        check(count[what] >= least, f"{count[what]} {what}, and not {least}")
    print(f"{passed} passed, {failed} failed")
    sys.exit(1 if failed else 0)


if __name__ == "__main__":
    main()
