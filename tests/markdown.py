#!/usr/bin/env python3
"""Runs hyphenate-text over texts in Markdown, and compares what it writes with them; tests/markdown calls it.

  tests/markdown.py PROGRAM FOLDER [--random N] [--seed N] [PAGE..]

The texts are the pages of this repository, or those that are named, and N texts of random parts of markup. A dictionary
breaks words before each consonant that a vowel follows. For each text:

- Without the marks the result is the text, byte for byte, and a second run changes nothing.
- Two parsers of CommonMark find the same in both, in the same order, except for marks in texts. They are markdown-it (Debian's
  package python3-markdown-it), for pages with tables too, and the program cmark. So code, targets, titles, labels, images and
  HTML are the same. Each mark is in a text that they find.

In all pages together four fifths of the marks are there that the same words get in plain texts. FOLDER is for files.

The last line is `N passed, M failed`; a line before it says how much was compared.
"""

import argparse
import os
import pathlib
import random
import shutil
import subprocess
import sys
import xml.etree.ElementTree

try:
    import markdown_it
except ImportError:
    markdown_it = None

from pages import SOFT, only_put_in

ROOT = pathlib.Path(__file__).resolve().parent.parent
PAGES = ["*.md", "docs/*.md", "bench/*.md", "bindings/*.md", "packaging/*.md"]
DICTIONARY = "hyphenation 1 standard\nlanguage en\nminima 1 1\n" + "".join(
    f"p 1{consonant}{vowel}\n" for consonant in "bcdfghjklmnpqrstvwxz" for vowel in "aeiouy")

# The parts of random texts.
PARTS = ["kottabo"] * 12 + [" "] * 6 + ["\n"] * 6 + """
` `` ``` ```` ~~~ - + > # ## 1. * ** _ __ [ ] ( ) ]( ][ ]: ![ [kottabo]: [kottabo] (kottabo) < > <b> </b> <i\x20title="
<b\x20title='kottabo'> <div> </div> <pre> </pre> <script> </script> <!-- --> <? ?> <!X <![CDATA[ ]]> <kottabo@kottabo.de>
<https://kottabo.de/kottabo> &amp; &kottabo; & " ' \\ | : ! === --- *** / 2 é
""".split() + ["\n\n", "\n\n", "    ", "  ", "\t", "\n---\n", "\n    ", "\n- ", "\n> ", "\n```\n", "\n~~~\n"]

passed = failed = 0
counts = dict.fromkeys(["texts", "marks", "codes"], 0)


def check(good, text):
    """Counts a check."""
    global passed, failed
    if good:
        passed += 1
    else:
        failed += 1
        if failed < 40:
            print(f"WRONG: {text}")


def of_tokens(tokens):
    """Pairs of a kind and a value, as markdown-it finds them. Texts, which may have marks, are of the kind `text`."""
    for token in tokens:
        if token.type == "inline":
            yield from of_tokens(token.children)
        elif token.type == "text":
            yield "text", token.content
        else:
            yield token.type, (token.attrs, token.content, token.info, token.markup, token.nesting)


def by_markdown_it(rules, text):
    """All that markdown-it finds in a text, by CommonMark and some more rules."""
    return list(of_tokens(markdown_it.MarkdownIt("commonmark").enable(rules).parse(text)))


def of_nodes(node, in_image):
    """Such pairs, as cmark finds them."""
    kind = node.tag.rpartition("}")[2]
    yield ("text" if kind == "text" and not in_image else kind), (node.attrib, node.text) if kind != "text" else node.text or ""
    for child in node:
        yield from of_nodes(child, in_image or kind == "image")
    yield "end", kind


def by_cmark(text):
    """All that cmark finds in a text."""
    ran = subprocess.run(["cmark", "-t", "xml"], input=text.encode(), capture_output=True, check=True)
    return list(of_nodes(xml.etree.ElementTree.fromstring(ran.stdout.decode().replace("<!DOCTYPE document SYSTEM \"CommonMark.dtd\">", "")), False))


def parsers(name, is_page):
    """The parsers that are there, by name."""
    if markdown_it:
        yield "markdown-it", lambda text: by_markdown_it([], text)
        if is_page:
            yield "markdown-it with tables", lambda text: by_markdown_it(["table"], text)
    if shutil.which("cmark"):
        yield "cmark", by_cmark


def compare(name, before, after, is_page):
    """Compares a text with its result. Returns the texts that the first parser finds."""
    marks = only_put_in(before, after, SOFT)
    check(marks is not None, f"{name}: more was done than putting marks in: {before!r} {after!r}")
    counts["texts"] += 1
    counts["marks"] += marks or 0
    texts = None
    for parser, told in parsers(name, is_page):
        first, second = told(before), told(after)
        found = sum(value.count(SOFT) for kind, value in second if kind == "text")
        same = [(kind, value.replace(SOFT, "") if kind == "text" else value) for kind, value in second] == first
        check(same and found == marks, f"{name}: {parser} finds {found} of {marks} marks in texts, or another text: {after!r}")
        counts["codes"] += sum("code" in kind or kind == "fence" for kind, _ in first)
        texts = texts or [value for kind, value in first if kind == "text"]
    return texts or []


def run(program, folder, options, texts):
    """Returns the results of texts, by their names."""
    shutil.rmtree(folder, ignore_errors=True)
    folder.mkdir()
    (folder / "dictionary.txt").write_text(DICTIONARY)
    for name, text in texts.items():
        (folder / name).write_bytes(text.encode())
    ran = subprocess.run([program, "--in-place", *options, "--lang", "./dictionary.txt", "--", *texts], cwd=folder,
                         capture_output=True, check=False)
    check(ran.returncode == 0, f"status {ran.returncode}: {ran.stderr.decode(errors='replace')}")
    return {name: (folder / name).read_bytes().decode() for name in texts}


def try_texts(program, folder, texts, is_page):
    """All checks of texts, by their names."""
    results = run(program, folder, ["--markdown"] if not is_page else [], texts)
    found = {name + ".txt": "\n".join(compare(name, text, results[name], is_page)) for name, text in texts.items()}
    again = run(program, folder, ["--markdown"], results)
    for name in texts:
        check(again[name] == results[name], f"{name}: a second run changes something: {results[name]!r}")
    if is_page and any(found.values()):
        marks = sum(text.count(SOFT) for text in results.values())
        wanted = sum(text.count(SOFT) for text in run(program, folder, [], found).values())
        print(f"{marks} marks in pages, whose words have {wanted} in plain texts")
        check(marks * 5 >= wanted * 4, f"{marks} marks in pages are few beside {wanted}")


def main():
    parser = argparse.ArgumentParser(prog="tests/markdown", usage="%(prog)s [--random N] [--seed N] [PAGE..]")
    parser.add_argument("program")
    parser.add_argument("folder", type=pathlib.Path)
    parser.add_argument("--random", type=int, default=400, metavar="N")
    parser.add_argument("--seed", type=int, default=1, metavar="N")
    parser.add_argument("pages", nargs="*", metavar="PAGE")
    given = parser.parse_intermixed_args()
    program, folder = os.path.abspath(given.program), given.folder / "texts"
    paths = [pathlib.Path(page) for page in given.pages] or [path for pattern in PAGES for path in sorted(ROOT.glob(pattern))]
    pages = {f"{number}-{path.stem}.md": path.read_text() for number, path in enumerate(paths)}
    try_texts(program, folder, pages, True)
    if not given.pages:
        check(len(pages) >= 15 and counts["marks"] >= 10000, f"{len(pages)} pages with {counts['marks']} marks are few")
    for package, is_there in (("python3-markdown-it", markdown_it), ("cmark", shutil.which("cmark"))):
        if not is_there:
            print(f"left out: {package} is missing, a parser")
    parts = random.Random(given.seed)
    made = {f"{number}": "".join(parts.choices(PARTS, k=parts.randrange(2, 40))) for number in range(given.random)}
    try_texts(program, folder, made, False)
    print(f"{counts['texts']} texts, {counts['marks']} marks, {counts['codes']} times code")
    print(f"{passed} passed, {failed} failed")
    return 1 if failed or not passed else 0


if __name__ == "__main__":
    sys.exit(main())
