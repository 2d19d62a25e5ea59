"""The calls from Python: python.py LEFT,RIGHT CALL DICTIONARY FILE words|text TIMES

It does and prints as the programs in C do. LEFT and RIGHT are the minima. CALL is one of these:

  list          Dictionary.positions_of of this library, for all words at once
  dictionary    Dictionary.positions
  interface     positions of hyphenation.pyphen, this library's module with the interface of pyphen
  pyphen        positions of pyphen
  cached        the same, and each word was asked for before

Pyphen remembers words. In `pyphen` it forgets them before each time, which takes no time here.
"""

import re
import sys
from time import process_time_ns

LETTERS = re.compile(r"[^\W\d_]+")


def caller(call, path, left, right):
    """Returns what goes through words, what goes through a text, and what is done before each time."""
    if call in ("list", "dictionary"):
        from hyphenation import Dictionary

        dictionary = Dictionary.from_path(path)
        positions = dictionary.positions

        def of_words(words):
            found = dictionary.positions_of(words) if call == "list" else [positions(word) for word in words]
            return sum(map(len, found))

        return of_words, lambda text: len(dictionary.text(text)) - len(text), lambda: None
    if call == "interface":
        from hyphenation import pyphen
    else:
        sys.path.append("/usr/lib/python3/dist-packages")
        import pyphen
    hyphenator = pyphen.Pyphen(filename=path, left=left, right=right)
    positions, inserted = hyphenator.positions, hyphenator.inserted

    def of_each(words):
        return sum(map(len, [positions(word) for word in words]))

    def of_text(text):
        return len(LETTERS.sub(lambda found: inserted(found.group()), text)) - len(text)

    return of_each, of_text, hyphenator.hd.cache.clear if call == "pyphen" else lambda: None


def main(minima, call, path, file, task, times):
    with open(file, encoding="utf-8", newline="") as given:
        content = given.read()
    of_words, of_text, before = caller(call, path, *map(int, minima.split(",")))
    content = content.split("\n")[:-1] if task == "words" else content
    ask = of_words if task == "words" else of_text
    found = spent = 0
    if call == "cached":
        ask(content)
    for _ in range(int(times)):
        before()
        begun = process_time_ns()
        found = ask(content)
        spent += process_time_ns() - begun
    print(found, spent)


main(*sys.argv[1:])
