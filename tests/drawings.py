"""Tests the drawings of hyphenate-explain, and looks at them in a headless browser. tests/drawings runs it.

Usage: drawings.py EXPLAIN CONVERT FOLDER [--browser BROWSER] [--keep FOLDER]. The last line is `N passed, M failed`.

The words are made of texts of patterns: 40 by each of five files of patterns, those of Debian's packages hyphen-de and its like.
Some words have a wide letter, a mark without columns or a character that XML escapes. Each language is one document. It must
be XML, with as many rows as the pictures of the words. With --browser each text must be inside of the drawing there, and no two
may overlap. Texts with a mark without columns are not compared with others, since some fonts draw it as wide as a letter. A file
of patterns that is not there is left out.
"""

import argparse
import pathlib
import random
import re
import shutil
import subprocess
import sys
import tempfile
import unicodedata
import xml.etree.ElementTree

PATTERNS = pathlib.Path("/usr/share/hyphen")
LANGUAGES = ("de_DE", "en_US", "fr_FR", "hu_HU", "ru_RU")
EXAMPLE = pathlib.Path(__file__).parent.parent / "examples/firkin.txt"
WORDS = 40
UNUSUAL = ("中", "の", "e\u0301", "\u0308", "<", "&")
SVG = "{http://www.w3.org/2000/svg}"
# Lists in the document which texts are not inside of it, and which two overlap. The no-break space at the begin of a row is no text.
MEASURE = """<script>
const drawing = document.querySelector('svg'), box = item => item.getBoundingClientRect(), faults = [], little = 0.1;
// at its own size, since the browser rounds the widths of small letters
drawing.style.width = drawing.viewBox.baseVal.width + 'px';
const frame = box(drawing), marked = /\\p{M}/u;
const texts = [...document.querySelectorAll('tspan')].filter(item => item.textContent.trim()).map(item => [item.textContent, box(item)]);
for (const [text, at] of texts)
  if (at.left < frame.left || at.right > frame.right || at.top < frame.top || at.bottom > frame.bottom)
    faults.push('not inside: ' + text);
texts.sort((one, other) => one[1].top - other[1].top);
texts.forEach(([text, at], i) => {
  for (let k = i + 1; k < texts.length && texts[k][1].top < at.bottom - little; k++)
    if (!marked.test(text + texts[k][0]) && texts[k][1].left < at.right - little && at.left < texts[k][1].right - little)
      faults.push('overlap: ' + text + ' and ' + texts[k][0]);
});
document.body.innerHTML = '<p id="measured"></p>';
document.body.firstChild.textContent = texts.length + ' texts; ' + faults.slice(0, 5).join('; ');
</script>
"""


def words_of(patterns):
    """Words for a file of patterns, made of the texts of some of them."""
    text = patterns.read_bytes()
    lines = text.decode(re.match(rb"[\w-]+", text).group().decode()).splitlines()[1:]
    keys = [re.sub(r"[\d.]|/.*", "", line) for line in lines if line and not re.match(r"[%#]|[A-Z]", line)]
    # a ligature is wider than its column
    keys = [key for key in keys if key.isalpha() and unicodedata.normalize("NFKC", key) == key]
    chosen = random.Random(patterns.name)
    for number in range(WORDS):
        parts = [chosen.choice(keys) for _ in range(chosen.randint(2, 4))]
        if number % 5 == 0:
            parts.insert(chosen.randint(0, len(parts)), chosen.choice(UNUSUAL))
        yield "".join(parts)


def measured(browser, document, folder):
    """How many texts a drawing has in the browser, and their faults."""
    path = folder / "drawing.html"
    path.write_text(f"<!DOCTYPE html><meta charset=utf-8><body>{document}{MEASURE}")
    with tempfile.TemporaryDirectory() as user:
        command = [browser, "--headless", "--no-sandbox", "--disable-gpu", f"--user-data-dir={user}", "--dump-dom", f"file://{path}"]
        tree = subprocess.run(command, capture_output=True, check=True, timeout=120).stdout.decode()
    found = re.search(r'id="measured">(\d+) texts; (.*)</p>', tree)
    return (int(found.group(1)), found.group(2)) if found else (0, "the browser says nothing")


def main():
    parser = argparse.ArgumentParser()
    parser.add_argument("explain")
    parser.add_argument("convert")
    parser.add_argument("folder", type=pathlib.Path)
    parser.add_argument("--browser")
    parser.add_argument("--keep", type=pathlib.Path)
    given = parser.parse_args()
    browser = given.browser and shutil.which(given.browser)
    if given.browser and not browser:
        sys.exit(f"tests/drawings: there is no {given.browser}")
    passed = failed = 0

    def check(fine, *said):
        nonlocal passed, failed
        passed, failed = passed + fine, failed + (not fine)
        if not fine:
            print("WRONG:", *said)

    def run(*command):
        found = subprocess.run(command, capture_output=True, check=False)
        check(found.returncode == 0, *command[:3], found.returncode, found.stderr.decode())
        return found.stdout.decode()

    drawn = [("firkin", EXAMPLE, ["firkins", "present"])]
    for language in LANGUAGES:
        patterns, dictionary = PATTERNS / f"hyph_{language}.dic", given.folder / f"{language}.txt"
        if not patterns.is_file():
            print(f"left out: {language}, since there is no {patterns}")
            continue
        dictionary.write_text(run(given.convert, "extended", language[:2], "2", "2", patterns))
        drawn.append((language, dictionary, [*words_of(patterns)]))
    for name, dictionary, words in drawn:
        document = run(given.explain, "--svg", dictionary, "--", *words)
        if given.keep:
            (given.keep / f"{name}.svg").write_text(document)
        # a picture has an empty line after it, and a drawing an empty row
        rows = run(given.explain, dictionary, "--", *words).count("\n") + 1
        found = xml.etree.ElementTree.fromstring(document).findall(f"{SVG}text/{SVG}tspan[@dy]")
        check(len(found) == rows, name, len(found), "rows, and not", rows)
        if browser:
            texts, faults = measured(browser, document, given.folder)
            check(texts > 10 * len(words) and not faults, name, texts, "texts:", faults)
    print(f"{passed} passed, {failed} failed")
    sys.exit(1 if failed else 0)


if __name__ == "__main__":
    main()
