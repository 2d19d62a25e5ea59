"""Runs the commands and examples of pages and man pages, and compares what they print with what is shown.

A command is a line of a block `sh`, or one after `$ ` in another block or in an example of a man page. There the lines after
it are what it prints, on standard error if nothing is on standard output. `# prints TEXT` at the end of a line is the same. In
the list of programs of the README it is what is between backticks and has an argument. All commands of a page run in one
folder, in their order; it has the examples of the repository and small files by the names that the pages use. A command
whose output is not shown has to end with status 0. Where a page says /users/me, it is the home of that folder, and spaces
in rows count as two. Blocks of C, Rust and Python in the README are those of bindings/README.md, which tests/bindings runs.

A command that is not run is named in NOT_RUN with the reason, and one that needs files of Debian in NEEDS. An entry that no
command matches is wrong. So is a program whose man page shows no output that was compared, and a first result of the README
whose output was not compared.
"""
import contextlib
import io
import os
import pathlib
import re
import shutil
import subprocess
import sys

import epub

ROOT = pathlib.Path(__file__).resolve().parent.parent
PAGES = [path.relative_to(ROOT).as_posix() for pattern in ("*.md", "docs/*.md", "*/README.md") for path in sorted(ROOT.glob(pattern))]

# Commands that are not run: what they begin with, after the page where only those of one page are meant.
NOT_RUN = [
    (r".*: apt-get ", "it installs packages of Debian"),
    (r".*: pip install ", "it installs a package; packaging/try does so"),
    (r".*: (cd crates/|rt )", "it proves"),
    (r".*: \./install\b", "it proves and installs; tests/install runs it"),
    (r".*: \./test\b", "it runs all tests, and this script is one of them"),
    (r".*: (make -C bindings/c|export PKG_CONFIG_PATH|cc example.c|LD_LIBRARY_PATH=)",
     "it needs the library for C; tests/bindings and tests/install make and link it"),
    (r".*: tests/", "it is a script of tests/"),
    (r".*: bench/", "it measures"),
    (r".*: packaging/|packaging/README.md: hyphenate-", "it makes packages or needs them; tests/packages and packaging/try do so"),
    (r"docs/LANGUAGES.md: (mkdir tex|for package)", "it downloads packages"),
    (r".*: languages/(make|libreoffice|table) ", "it goes through all languages; tests/languages runs what it does over a few"),
    (r".*: DICPATH=", "it starts LibreOffice; tests/libreoffice does so"),
    (r"docs/man/hyphenate-languages.1: hyphenate-languages$", "it makes the dictionaries of all languages on the machine"),
]
# Commands that need files of packages: those of TeX's patterns, and of LibreOffice's. `!` before a path: they may not be there.
TEX = "/usr/share/cargo/registry/hyphenation-*/patterns"
NEEDS = [
    (r".*: P=|.*\$P/|.* /usr/share/cargo/registry/", [TEX]),
    (r".*hyphenate-languages( --list)? de\b", [TEX]),
    (r".*(--lang de|standard de-1996|\bde mail.txt)", [TEX]),
    (r".*--list fr hu mk", [TEX, "/usr/share/hyphen/hyph_hu_HU.dic", "!/usr/share/texlive/texmf-dist/tex/generic/hyph-utf8"]),
    (r".*hyph_de_DE.dic", ["/usr/share/hyphen/hyph_de_DE.dic"]),
    (r".*hyph_pt_BR.dic", ["/usr/share/hyphen/hyph_pt_BR.dic"]),
    (r"docs/man/hyphenate-convert.1: hyphenate-convert standard en-us", [TEX]),
]

passed = failed = 0


def check(good, said):
    global passed, failed
    passed, failed = passed + bool(good), failed + (not good)
    if not good:
        print(f"WRONG: {said}")


class Command:
    """A command of a page, and the lines that the page shows of its output; None where it shows none."""

    def __init__(self, page, line, text, shown=None):
        self.page, self.line, self.text, self.shown = page, line, text, shown
        self.name = f"{page}: {text}"

    def reason(self):
        """Why it is not run, or None."""
        for at, (pattern, reason) in enumerate(NOT_RUN):
            if re.match(pattern, self.name):
                matched.add(("NOT_RUN", at))
                return reason
        reason = None
        for at, (pattern, paths) in enumerate(NEEDS):
            if re.match(pattern, self.name):
                matched.add(("NEEDS", at))
                for path in paths:
                    if bool(list(pathlib.Path("/").glob(path.lstrip("!/")))) == path.startswith("!"):
                        reason = f"{path.lstrip('!')} is {'' if path.startswith('!') else 'not '}there"
        return reason


matched = set()


def blocks_of(text):
    """The blocks of a page: the number of the first line of each, its language and its lines."""
    for found in re.finditer(r"^```([\w+]*)\n(.*?)^```$", text, re.M | re.S):
        yield text.count("\n", 0, found.start()) + 2, found.group(1), found.group(2).splitlines()


def shown_commands(page, begin, lines):
    """The commands of a block after `$ `, each with the lines below it."""
    commands = []
    for number, line in enumerate(lines, begin):
        if line.startswith("$ "):
            commands.append(Command(page, number, line[2:]))
        elif commands:
            commands[-1].shown = [*(commands[-1].shown or []), line]
    return commands


def shell_commands(page, begin, lines):
    """The commands of a block `sh`, one a line; a line with a backslash at its end goes on."""
    part = ""
    for number, line in enumerate(lines, begin):
        if line.endswith("\\"):
            part += line[:-1]
            continue
        text, part = part + line, ""
        printed = re.search(r"\s+# prints (.*)$", text)
        text = re.sub(r"\s+# .*$", "", text).strip()
        if text:
            yield Command(page, number, text, [printed.group(1)] if printed else None)


def commands_of_page(page):
    text = (ROOT / page).read_text()
    found = []
    for begin, language, lines in blocks_of(text):
        if language == "sh":
            found += shell_commands(page, begin, lines)
        elif any(line.startswith("$ ") for line in lines):
            found += shown_commands(page, begin, lines)
        elif page == "bench/README.md" and not language:
            found += [Command(page, begin, line) for line in lines if line.startswith(("apt-get", "bench/"))]
    if page == "README.md":
        for number, line in enumerate(text.splitlines(), 1):
            listed = re.match(r"- `[\w-]+` .*: `(hyphenate.*)`$", line)
            if listed:
                found.append(Command(page, number, listed.group(1)))
    return found


def commands_of_man(path):
    """The commands in the examples of a man page."""
    lines = path.read_text().splitlines()
    inside, found = None, []
    for number, line in enumerate(lines, 1):
        if line == ".EX":
            inside = []
        elif line == ".EE":
            plain = [re.sub(r"\\&", "", one).replace(r"\-", "-").replace(r"\(aq", "'").replace(r"\e", "\\") for one in inside]
            found += shown_commands(f"docs/man/{path.name}", number - len(plain), plain)
            inside = None
        elif inside is not None:
            inside.append(line)
    return found


def folder_for(scratch, number):
    """A folder as the pages take it: with the programs, the examples, and files by the names that pages use."""
    folder = scratch / f"page-{number}"
    home = folder / "home"
    texts = home / ".local/share/hyphenation"
    texts.mkdir(parents=True)
    shutil.copytree(ROOT / "examples", folder / "examples")
    (folder / "bin").symlink_to(scratch / "bin")
    firkin = (ROOT / "examples/firkin.txt").read_text()
    (folder / "firkin.txt").write_text(firkin)
    # in the place of the dictionary that a user has made of a language
    (texts / "en-us.txt").write_text(firkin.replace("language en-gb", "language en-us"))
    page = '<!DOCTYPE html>\n<html lang="en"><head><title>Ale</title></head><body><p>Two firkins of ale.</p></body></html>\n'
    for name, text in (("notes.txt", "Two firkins of ale.\n"), ("mail.txt", "Subject: ale\n\n> Two firkins of ale.\n\nNone.\n"),
                       ("paragraph.txt", "Two firkins\nof ale\n"), ("mine.txt", "fir-kins\n"), ("page.html", page), ("chapter1.xhtml", page), ("chapter2.xhtml", page)):
        (folder / name).write_text(text)
    one = {"one.xhtml": ("book/one.xhtml", epub.page("Two firkins of ale."))}
    epub.write(folder / "book.epub", epub.files(one, "<dc:language>en</dc:language>"))
    for path in pathlib.Path("/usr/share/hyphen").glob("hyph_de_DE.dic"):
        (folder / path.name).symlink_to(path)
    return folder


def plain(text, folder):
    """A text as pages show it."""
    text = text.replace(str(folder / "home"), "/users/me")
    return [re.sub(r"(?<=\S)  +", "  ", re.sub(r"hyphenation-[0-9.]+/", "hyphenation-N/", line)) for line in text.splitlines()]


def run(commands, scratch, number):
    """Runs the commands of a page in one shell, and compares. It returns those whose output was compared."""
    folder = folder_for(scratch, number)
    given = {"PATH": f"{scratch / 'bin'}:{os.environ['PATH']}", "HOME": str(folder / "home"), "LC_ALL": "C.UTF-8",
             "HYPHENATE_BIN": str(scratch / "bin"), "PYTHONDONTWRITEBYTECODE": "1"}
    script = "".join(f"{{ {command.text}\n}} >{folder}/out.{at} 2>{folder}/err.{at} </dev/null\necho $? >{folder}/status.{at}\n"
                     for at, command in enumerate(commands))
    subprocess.run(["bash", "-s"], input=script, text=True, cwd=folder, env=given, capture_output=True, check=False)
    compared = []
    for at, command in enumerate(commands):
        place = f"{command.page}:{command.line}: {command.text}"
        if not (folder / f"status.{at}").exists():
            check(False, f"{place}: it did not run")
            continue
        status = (folder / f"status.{at}").read_text().strip()
        out, err = ((folder / f"{name}.{at}").read_text() for name in ("out", "err"))
        if status != "0":
            check(False, f"{place}: status {status}: {err.strip()[-300:]}")
        elif command.shown is None:
            check(True, "")
        else:
            has, wants = plain(out or err, folder), plain("\n".join(command.shown), folder)
            check(has == wants, f"{place}: it prints\n" + "\n".join(has) + "\nand the page shows\n" + "\n".join(wants))
            compared.append(command)
    return compared


def code_of(text, language):
    """The first block of a language in a page, without comments and spaces."""
    for _, of_block, lines in blocks_of(text):
        if of_block == language:
            mark = "#" if language == "python" else "//"
            kept = [re.sub(rf"\s+(/\*.*?\*/|{mark} .*)$", "", line) for line in lines]
            return "".join("".join(kept).split())
    return None


def check_blocks(scratch):
    """The blocks that are no commands: dictionary texts, and code."""
    bindings, readme = ((ROOT / page).read_text() for page in ("bindings/README.md", "README.md"))
    for language in ("c", "python", "rust"):
        of_bindings = code_of(bindings, language)
        check(of_bindings and code_of(readme, language) == of_bindings,
              f"README.md: the block {language} is not that of bindings/README.md, which tests/bindings runs")
    canonical = [str(scratch / "bin/hyphenate-canonical")]
    texts = []
    for begin, language, lines in blocks_of((ROOT / "docs/DICTIONARY_TEXT.md").read_text()):
        if not language and lines[0].startswith("hyphenation "):
            ran = subprocess.run(canonical, input="\n".join(lines) + "\n", text=True, capture_output=True, check=False)
            check(ran.returncode == 0, f"docs/DICTIONARY_TEXT.md:{begin}: the text is refused: {ran.stderr.strip()}")
            texts.append(("\n".join(lines) + "\n", ran.stdout))
    check(len(texts) >= 5, f"docs/DICTIONARY_TEXT.md: {len(texts)} whole texts, and not five")
    check(texts and texts[-2][1] == texts[-1][0] == texts[-1][1],
          "docs/DICTIONARY_TEXT.md: the last text is not the canonical text of the one before")
    caller = next(lines for _, language, lines in blocks_of((ROOT / "docs/CALLING.md").read_text()) if language == "python")
    asked = 'assert hyphenated("firkins", "-", "en-gb", "examples/firkin.txt") == "fir-k-ins"\n'
    ran = subprocess.run([sys.executable, "-"], input="\n".join(caller) + "\n" + asked, text=True, capture_output=True, cwd=ROOT,
                         env={**os.environ, "PATH": f"{scratch / 'bin'}:{os.environ['PATH']}"}, check=False)
    check(ran.returncode == 0, f"docs/CALLING.md: the function of Python: {ran.stderr.strip()[-300:]}")


# The dictionaries of the words at the top of the README: the kind, the code, and the file that hyphenate-languages makes.
OF_WORDS = [("standard", "en-us", "en-us.txt"), ("standard", "de-1996", "de-1996.txt"), ("extended", "hu", "hu.extended.txt")]


def check_words(scratch):
    """The words at the top of the README break as they are shown there. It returns why they are left out, or None."""
    for path in (TEX, "/usr/share/hyphen/hyph_hu_HU.dic"):
        if not list(pathlib.Path("/").glob(path[1:])):
            return f"{path} is not there"
    made = [str(ROOT / "bin/hyphenate-languages"), "--into", str(scratch / "texts"), *(code for _, code, _ in OF_WORDS)]
    environment = {**os.environ, "HYPHENATE_BIN": str(scratch / "bin"), "PYTHONDONTWRITEBYTECODE": "1"}
    ran = subprocess.run(made, env=environment, text=True, capture_output=True, check=False)
    check(ran.returncode == 0, f"README.md: the dictionaries of its words: {ran.stderr.strip()[-300:]}")
    words = re.findall(r"^(\w+) +→ +(\S+) ", (ROOT / "README.md").read_text(), re.M)
    check(len(words) == len(OF_WORDS), f"README.md: {len(words)} words with their breaks, and not {len(OF_WORDS)}")
    for (word, shown), (kind, code, text) in zip(words, OF_WORDS):
        command = [str(scratch / "bin/hyphenate"), kind, code, str(scratch / "texts" / text), "-"]
        has = subprocess.run(command, input=word, text=True, capture_output=True, check=False).stdout
        check(has == shown, f"README.md: {word} is {has}, and the page shows {shown}")
    return None


def check_itself(scratch):
    """A wrong output and a wrong status have to be seen."""
    global passed, failed
    before = passed, failed
    wrong = [Command("one", 1, "echo one", ["two"]), Command("two", 2, "false"), Command("three", 3, "true")]
    with contextlib.redirect_stdout(io.StringIO()):
        run(wrong, scratch, "itself")
    seen = passed - before[0], failed - before[1]
    passed, failed = before
    check(seen == (1, 2), f"tests/examples.py: of two wrong outputs and a right one it finds {seen[1]} wrong and {seen[0]} right")


def main(words):
    scratch, lists = pathlib.Path(words[0]), words[1:] == ["--list"]
    for name in ("hyphenate-epub", "hyphenate-languages"):
        (scratch / "bin" / name).symlink_to(ROOT / "bin" / name)
    mans = sorted(ROOT.glob("docs/man/*.[17]"))
    left_out, compared, ran = [], [], 0
    sources = [(page, commands_of_page(page)) for page in PAGES] + [(f"docs/man/{path.name}", commands_of_man(path)) for path in mans]
    for number, (page, commands) in enumerate(sources):
        reasons = [(command, command.reason()) for command in commands]
        left_out += [(f"{command.page}:{command.line}: {command.text}", reason) for command, reason in reasons if reason]
        kept = [command for command, reason in reasons if not reason]
        if kept:
            compared += run(kept, scratch, number)
            ran += len(kept)
        if page.startswith("docs/man/"):
            check(commands, f"{page}: there is no example")
    for table, entries in (("NOT_RUN", NOT_RUN), ("NEEDS", NEEDS)):
        for at, entry in enumerate(entries):
            check((table, at) in matched, f"tests/examples.py: no command matches the entry {entry[0]} of {table}")
    for path in mans:
        shows = any(command.page == f"docs/man/{path.name}" for command in compared)
        check(shows or path.suffix == ".7", f"docs/man/{path.name}: no output of an example was compared")
    firsts = [command for command in sources[PAGES.index("README.md")][1] if re.search(r"\| bin/hyphenate ", command.text)]
    check(len(firsts) == 2 and set(firsts) <= set(compared), "README.md: its first results were not run and compared")
    check_blocks(scratch)
    reason = check_words(scratch)
    left_out += [("README.md: the words at its top", reason)] if reason else []
    check_itself(scratch)
    if lists:
        print(*(f"{name}  ({reason})" for name, reason in left_out), sep="\n")
    for reason in dict.fromkeys(reason for _, reason in left_out):
        names = [name for name, other in left_out if other == reason]
        print(f"left out: {len(names)} {'commands' if len(names) > 1 else 'command'}, since {reason}")
    print(f"{ran} commands of {len(sources)} pages ran, and the output of {len(compared)} was compared; --list names those left out")
    print(f"{passed} passed, {failed} failed")
    return 1 if failed else 0


if __name__ == "__main__":
    sys.exit(main(sys.argv[1:]))
