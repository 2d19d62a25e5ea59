#!/usr/bin/env python3
"""Runs hyphenate-html over pages, and compares what it writes with them; tests/pages calls it.

  tests/pages.py PROGRAM [--browser BROWSER] [--option OPTION].. [PAGE..]

For each page:

- The program ends with 0. With the marks taken out, what it wrote is the page, byte for byte. So it is with a
  mark that no page has. It is so with the soft hyphen too, where a comparison with the page finds what was put in.
- Python's html.parser reads both. All it finds is the same, in the same order, except for soft hyphens in text. So the
  tree is the same, and no mark is in a tag, a comment, a declaration, a reference, a script or a style.
- No mark is in an element that is left alone.
- A second run changes nothing.
- With --browser, the tree that the browser makes of both is the same too, except for soft hyphens in text.

Without pages it also tries the folders in which dictionaries are found by the environment, and that a dictionary is
opened once for all pages.

html.parser ends some comments and scripts otherwise than the standard does. So it does not read a page whose name
begins with `odd`.

A page PAGE.html next to a file PAGE.marked is one of the repository's own. The program must write that file, by the
dictionaries of the folder `dictionaries` there. Its first line has the mark and the options.

A line for each page has its bytes, its marks and the seconds of the run. The last line is `N passed, M failed`.
"""

import argparse
import html.parser
import os
import subprocess
import sys
import tempfile
import time

SOFT = "\u00ad"
# A character for private use, which no page has.
OTHER = "\uf8ff"
# The elements that are left alone.
ALONE = {"script", "style", "pre", "code", "kbd", "samp", "tt", "var", "textarea", "svg", "math"}

# The pages of tests/html; each has a file of what the program must write.
PAGES = ["chapter.xhtml", "languages.html", "left-alone.html", "odd-comments.html", "options.html"]

passed = failed = 0


def check(good, text):
    """Counts a check."""
    global passed, failed
    if good:
        passed += 1
    else:
        failed += 1
        print(f"WRONG: {text}")


class Reader(html.parser.HTMLParser):
    """All that html.parser tells of a page, in order: pairs of a kind and a text. Text that may have marks is of the
    kind `text`; text that may have none is of the kind `alone`."""

    def __init__(self):
        super().__init__(convert_charrefs=False)
        self.told = []
        self.depth = dict.fromkeys(ALONE, 0)

    def tell(self, kind, text):
        if self.told and kind in ("text", "alone") and self.told[-1][0] == kind:
            self.told[-1] = kind, self.told[-1][1] + text
        else:
            self.told.append((kind, text))

    def handle_starttag(self, tag, attrs):
        self.tell("start", self.get_starttag_text())
        if tag in ALONE:
            self.depth[tag] += 1

    def handle_startendtag(self, tag, attrs):
        self.tell("empty", self.get_starttag_text())

    def handle_endtag(self, tag):
        self.tell("end", tag)
        if self.depth.get(tag):
            self.depth[tag] -= 1

    def handle_data(self, data):
        self.tell("alone" if self.cdata_elem or any(self.depth.values()) else "text", data)

    def handle_entityref(self, name):
        self.tell("reference", name)

    def handle_charref(self, name):
        self.tell("reference", "#" + name)

    def handle_comment(self, data):
        self.tell("comment", data)

    def handle_decl(self, decl):
        self.tell("declaration", decl)

    def unknown_decl(self, data):
        self.tell("declaration", data)

    def handle_pi(self, data):
        self.tell("instruction", data)


def told(page):
    """Returns all that html.parser tells of a page."""
    reader = Reader()
    reader.feed(page)
    reader.close()
    return reader.told


def only_put_in(page, written, mark):
    """How many marks were put into a page to get a text; None if something else was done."""
    marks = at = 0
    for sign in written:
        if at < len(page) and sign == page[at]:
            at += 1
        elif sign == mark:
            marks += 1
        else:
            return None
    return marks if at == len(page) else None


def same_but_for_marks(page, written):
    """Whether html.parser finds the same in both, except for soft hyphens in text."""
    first, second = told(page), told(written)
    if [kind for kind, _ in first] != [kind for kind, _ in second]:
        return False
    for (kind, one), (_, other) in zip(first, second):
        if kind == "text":
            one, other = one.replace(SOFT, ""), other.replace(SOFT, "")
        if one != other:
            return False
    return True


def run(program, options, page):
    """The status, the output and the messages of the program for a page."""
    ran = subprocess.run([program, *options], input=page, capture_output=True, check=False)
    return ran.returncode, ran.stdout, ran.stderr.decode(errors="replace")


def tree(browser, name, page):
    """The tree that a browser makes of a page, written as a page again."""
    with tempfile.TemporaryDirectory() as folder:
        path = os.path.join(folder, "page" + os.path.splitext(name)[1])
        with open(path, "wb") as file:
            file.write(page)
        command = [browser, "--headless", "--no-sandbox", "--disable-gpu", f"--user-data-dir={folder}/user",
                   "--virtual-time-budget=10000", "--dump-dom", f"file://{path}"]
        dumped = subprocess.run(command, capture_output=True, check=True).stdout.decode()
        if not dumped:
            raise OSError(f"{browser} writes no tree of {name}")
        return dumped


def try_page(given, path):
    """All checks of a page."""
    with open(path, "rb") as file:
        page = file.read()
    began = time.monotonic()
    status, written, messages = run(given.program, given.option, page)
    seconds = time.monotonic() - began
    check(status == 0, f"{path}: status {status}: {messages}")
    if status != 0:
        return
    before, after = page.decode(), written.decode()
    marks = only_put_in(before, after, SOFT)
    check(marks is not None, f"{path}: more was done than putting soft hyphens in")
    print(f"{path}: {len(page)} bytes, {marks} soft hyphens, {seconds:.2f} s {messages.strip()}")
    if OTHER not in before:
        status, other, messages = run(given.program, [*given.option, "--mark", OTHER], page)
        check(status == 0 and other.decode().replace(OTHER, "").encode() == page,
              f"{path}: without the marks it is not the page: {messages}")
        check(other.decode().count(OTHER) == marks, f"{path}: another mark has another number of places")
    if not os.path.basename(path).startswith("odd"):
        check(same_but_for_marks(before, after), f"{path}: html.parser reads another tree, or a mark outside of text")
    status, again, messages = run(given.program, given.option, written)
    check(status == 0 and again == written, f"{path}: a second run changes something")
    if given.browser:
        one, other = tree(given.browser, path, page), tree(given.browser, path, written)
        check(one.replace(SOFT, "") == other.replace(SOFT, "") and same_but_for_marks(one, other),
              f"{path}: the browser reads another tree, or a mark outside of text")
        check(other.count(SOFT) - one.count(SOFT) == marks, f"{path}: the browser reads {other.count(SOFT)} marks")


def try_own(given, path):
    """A page of the repository, with the text that the program must write. The first line of that has the options."""
    with open(path, "rb") as file:
        page = file.read()
    with open(os.path.splitext(path)[0] + ".marked", "rb") as file:
        options, _, wanted = file.read().partition(b"\n")
    folder = os.path.join(os.path.dirname(path), "dictionaries")
    status, written, messages = run(given.program, ["--dictionaries", folder, *options.decode().split()], page)
    check(status == 0 and written == wanted, f"{path}: status {status}, {messages} and another text than wanted")
    if written != wanted:
        for number, (one, other) in enumerate(zip(written.split(b"\n"), wanted.split(b"\n")), 1):
            if one != other:
                print(f"  line {number}: {one.decode()}\n  wanted: {other.decode()}")


def try_folders(program):
    """The folders of dictionaries in their order. Those of the system must have no English one."""
    def soft_hyphens(**variables):
        ran = subprocess.run([program], input=b"<p lang=en>firkin", env=variables, capture_output=True, check=True)
        return ran.stdout.decode().count(SOFT)

    with tempfile.TemporaryDirectory() as top:
        for folder in ("path", "data/hyphenation", "home/.local/share/hyphenation"):
            os.makedirs(os.path.join(top, folder))
        path, data, home, none = (os.path.join(top, name) for name in ("path", "data", "home", "none"))
        # by the number of breaks one sees which folder was taken
        for folder, places in ((path, "3"), (data + "/hyphenation", "3 4"), (home + "/.local/share/hyphenation", "2 3 4")):
            with open(os.path.join(folder, "en.txt"), "w", encoding="utf-8") as file:
                file.write(f"hyphenation 1 standard\nlanguage en\nminima 1 1\ne firkin {places}\n")
        for variables, wanted in (
            ({"HYPHENATION_PATH": path, "XDG_DATA_HOME": data, "HOME": home}, 1),
            ({"HYPHENATION_PATH": f"{none}::{path}", "HOME": home}, 1),
            ({"XDG_DATA_HOME": data, "HOME": home}, 2),
            ({"HOME": home}, 3),
            ({"HYPHENATION_PATH": none, "HOME": home}, 3),
            ({}, 0),
        ):
            found = soft_hyphens(**variables)
            check(found == wanted, f"folders by {sorted(variables)}: {found} soft hyphens, and not {wanted}")


def try_once(program):
    """A dictionary that is found is opened once for all pages: it is a pipe, which gives its text once."""
    with tempfile.TemporaryDirectory() as top:
        os.symlink("/dev/stdin", os.path.join(top, "en.txt"))
        pages = []
        for number, language in enumerate(("en", "fr", "en-GB", "en")):
            pages.append(os.path.join(top, f"{number}.html"))
            with open(pages[-1], "w", encoding="utf-8") as file:
                file.write(f"<p lang={language}>firkin")
        dictionary = b"hyphenation 1 standard\nlanguage en\nminima 1 1\ne firkin 3\n"
        status, written, messages = run(program, ["--dictionaries", top, "--mark", "-", *pages], dictionary)
        check(status == 0 and written.decode().count("fir-kin") == 3,
              f"a dictionary that is a pipe: status {status}, {written.decode()!r}: {messages}")


def main():
    usage = "%(prog)s [--browser BROWSER] [--option OPTION].. [PAGE..]"
    parser = argparse.ArgumentParser(prog="tests/pages", usage=usage)
    parser.add_argument("program")
    parser.add_argument("--browser", metavar="BROWSER")
    parser.add_argument("--option", action="append", default=[], metavar="OPTION")
    parser.add_argument("pages", nargs="*", metavar="PAGE")
    given = parser.parse_intermixed_args()
    own = os.path.join(os.path.dirname(os.path.realpath(__file__)), "html")
    found = sorted(name for name in os.listdir(own) if name != "dictionaries")
    wanted = sorted(PAGES + [os.path.splitext(name)[0] + ".marked" for name in PAGES])
    if not given.pages:
        check(found == wanted, f"the files of tests/html are {found}, and not {wanted}")
    for path in given.pages or [os.path.join(own, name) for name in found if not name.endswith(".marked")]:
        if os.path.exists(os.path.splitext(path)[0] + ".marked"):
            try_own(given, path)
            folder = os.path.join(os.path.dirname(path), "dictionaries")
            try_page(argparse.Namespace(**{**vars(given), "option": ["--dictionaries", folder]}), path)
        else:
            try_page(given, path)
    if not given.pages:
        try_folders(given.program)
        try_once(given.program)
    print(f"{passed} passed, {failed} failed")
    return 1 if failed or not passed else 0


if __name__ == "__main__":
    sys.exit(main())
