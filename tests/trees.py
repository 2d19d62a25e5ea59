#!/usr/bin/env python3
"""Makes pages at random, runs hyphenate-html over them, and compares its marks with the trees of parsers; tests/pages calls it.

  tests/trees.py PROGRAM [--pages N] [--seed N]

The trees are those of html5lib (Debian's package python3-html5lib), which reads a page as the HTML Living Standard does,
with scripting on and off. For pages that are well-formed XML with a namespace they are those of Python's expat too.

The one word of the pages has another break in each language, so a mark tells by which dictionary it was put in.

- N *hostile* pages: tags, texts, comments, declarations, scripts and attributes in any order.
- N *nested* pages: elements that nest wrongly, parts of tables, forms, lists and links.
- N *loose* pages: elements that nest wrongly come first, and then elements of which some are left alone or name a language.
- N *XML* pages: elements, sections, instructions, comments and document types.
- N *valid* pages in HTML, with end tags left out, drawings, formulas, tables, scripts and templates; and N of XHTML.

Each page is the result without the marks; each mark is in a text, and no attribute, comment, script or document type
changes; no mark is in an element that is left alone; the word has the break of the language that the tree gives it; and a
second run changes nothing. In a valid page each word that may have a mark has one.

The last line is `N passed, M failed`; the lines before it say how many marks were compared.
"""

import argparse
import os
import random
import subprocess
import sys
import tempfile
import warnings
import xml.parsers.expat

warnings.simplefilter("ignore")
import html5lib  # noqa: E402

MARK = "\uf8ff"
SOFT = "\u00ad"
WORD = "kottabo"
# The places of the languages' breaks, and of the language that holds where a page names none.
PLACES = {"en": 1, "de": 2, "fr": 3, "nl": 4, "it": 5}
OTHERWISE = "it"
# Elements whose text is left alone.
ALONE = {"code", "iframe", "kbd", "listing", "math", "noembed", "noframes", "noscript", "option", "plaintext", "pre",
         "samp", "script", "style", "svg", "template", "textarea", "title", "tt", "var", "xmp"}
HTML = "{http://www.w3.org/1999/xhtml}"
XML_LANG = ("{http://www.w3.org/XML/1998/namespace}lang", "xml:lang")

passed = failed = 0
counts = {}


def check(good, text, page=b""):
    """Counts a check."""
    global passed, failed
    if good:
        passed += 1
    else:
        failed += 1
        if failed < 40:
            print(f"WRONG: {text}: {page!r}")


# ---- trees

def local(tag):
    """The name of an element without its namespace; empty for a comment."""
    return tag.rsplit("}", 1)[-1] if isinstance(tag, str) else ""


def texts_of(element, language, alone, translated, is_xml):
    """Yields the texts in an element, each with its language and whether it is left alone."""
    name = local(element.tag)
    names = [*XML_LANG, "lang"] if is_xml else ["lang"]
    for attribute in names:
        if attribute in element.attrib:
            language = element.attrib[attribute]
            break
    alone = alone or name in ALONE or "donthyphenate" in element.attrib.get("class", "").split()
    translated = {"no": False, "yes": True, "": True}.get(element.attrib.get("translate", "?"), translated)
    if element.text:
        yield element.text, language, alone or not translated
    for child in element:
        if isinstance(child.tag, str):
            yield from texts_of(child, language, alone, translated, is_xml)
        if child.tail:
            yield child.tail, language, alone or not translated


def rest_of(element):
    """All of a tree but its texts: names, attributes and comments, in order."""
    told = [local(element.tag), sorted(element.attrib.items())]
    if not isinstance(element.tag, str):
        told.append(element.text)
    told.append([rest_of(child) for child in element])
    return told


def html_tree(page, scripting):
    """The tree that a browser makes of a page. Its decoder takes the byte order mark away."""
    parser = html5lib.HTMLParser(html5lib.getTreeBuilder("etree"), namespaceHTMLElements=True)
    return parser.parse(page[1:] if page.startswith("\ufeff") else page, scripting=scripting)


class XmlReader:
    """The texts of a page in XML, each with its language and whether it is left alone, and all that is no text."""

    def __init__(self, page):
        self.texts, self.rest, self.open = [], [], [("", False)]
        parser = xml.parsers.expat.ParserCreate()
        parser.buffer_text = True
        parser.StartElementHandler = self.start
        parser.EndElementHandler = lambda name: (self.open.pop(), self.rest.append(("end", name)))
        parser.CharacterDataHandler = lambda text: self.texts.append((text, *self.open[-1]))
        parser.CommentHandler = lambda text: self.rest.append(("comment", text))
        parser.ProcessingInstructionHandler = lambda name, text: self.rest.append((name, text))
        parser.StartDoctypeDeclHandler = lambda *told: self.rest.append(told)
        parser.EntityDeclHandler = lambda *told: self.rest.append(told)
        parser.AttlistDeclHandler = lambda *told: self.rest.append(told)
        parser.Parse(page, True)

    def start(self, name, attributes):
        """A start tag."""
        language, alone = self.open[-1]
        language = attributes.get("xml:lang", attributes.get("lang", language))
        self.open.append((language, alone or name.lower() in ALONE))
        self.rest.append((name, sorted(attributes.items())))


def place_of(language):
    """The place at which a language breaks the word; None where it has no dictionary."""
    return PLACES.get(language.lower().split("-")[0] if language else OTHERWISE if language is None else "")


def marks_in(texts, page, told, is_valid):
    """Compares the marks in texts with their languages; returns how many there are."""
    marks = 0
    for text, language, alone in texts:
        if MARK not in text and not is_valid:
            continue
        count = text.count(MARK)
        marks += count
        if alone:
            check(count == 0, f"{told}: a mark in an element that is left alone", page)
            continue
        place = place_of(language)
        if place is None:
            check(count == 0, f"{told}: a mark in {language!r}", page)
            continue
        good = WORD[:place] + MARK + WORD[place:]
        left = text.replace(good, "")
        check(MARK not in left, f"{told}: a mark that is not of {language!r}", page)
        if is_valid:
            check(WORD not in left, f"{told}: a word of {language!r} without its mark", page)
    return marks


def compare(kind, page, written, again):
    """All checks of a page, of what was written with a mark that is seen, and of both runs with soft hyphens."""
    is_valid = kind.startswith("valid")
    text, marked = page.decode(), written.decode()
    check(marked.replace(MARK, "") == text, f"{kind}: without the marks it is not the page", page)
    check(again[0] == again[1], f"{kind}: a second run changes something", page)
    total = marked.count(MARK)
    counts[kind] = counts.get(kind, 0) + total
    if not total and not is_valid:
        return
    try:
        reader = XmlReader(page)
        is_xml = "xmlns" in text.split(">")[0] or text.startswith("<?xml") or "xmlns=" in text
    except (xml.parsers.expat.ExpatError, ValueError):
        reader, is_xml = None, False
    is_xml = is_xml and (kind.endswith("XML") or kind.endswith("XHTML"))
    for scripting in (False, True):
        one, other = html_tree(text, scripting), html_tree(marked, scripting)
        told = f"{kind}, scripting {'on' if scripting else 'off'}"
        check(repr(rest_of(one)).replace(MARK, "") == repr(rest_of(other)).replace(MARK, "")
              and MARK not in repr(rest_of(other)), f"{told}: more than text changes", page)
        texts = list(texts_of(other, None, False, True, False))
        if is_xml:
            shown = sum(piece.count(MARK) for piece, _, _ in texts)
        else:
            shown = marks_in(texts, page, told, is_valid)
        check(shown == total, f"{told}: {shown} of {total} marks are in texts", page)
    if is_xml:
        after = XmlReader(written)
        check(reader.rest == after.rest, f"{kind}: more than text changes in XML", page)
        texts = [(text, language or None, alone) for text, language, alone in after.texts]
        check(marks_in(texts, page, f"{kind} in XML", is_valid) == total, f"{kind}: a mark outside of XML's texts", page)


# ---- pages at random

def pick(choice, *options):
    """One of some options."""
    return choice.choice(options)


def language(choice):
    """An attribute that names a language, or nothing."""
    return pick(choice, "", "", "", ' lang=de', ' lang="en"', " lang='fr'", ' lang=nl', ' LANG=de-AT', ' lang=""')


NAMES = """a abbr address article b big blockquote body br button caption center code col colgroup dd details dialog div dl dt
em embed fieldset figure font footer form frameset h1 h2 head hr html i iframe image img input kbd li link listing main
marquee math menu meta mi mtext mo annotation-xml nobr noembed noframes noscript object ol optgroup option p param plaintext
pre q rb rp rt rtc ruby s samp script section select small span strong style sub summary svg foreignObject desc title g path
table tbody td template textarea tfoot th thead title tr tt u ul var video wbr xmp x-y""".split()
NESTED = """a b i em nobr font code samp p p div span table table tbody thead tr tr td td th caption colgroup col li li ul ol dl dd dt
form form body html head h1 h2 button select option optgroup ruby rt rp template object section address pre""".split()


def odd_tag(choice):
    """A tag with an attribute in which markup is written."""
    value = pick(choice, "</noscript>", "</script>", "</title>", "-->", "]]>", ">", "</svg>", "<p lang=de>", "</textarea><img alt=")
    return f'<{pick(choice, "a", "p", "img", "path")} title="{value} {WORD} {value}">'


def hostile(choice):
    """Tags, texts, comments, declarations, scripts and attributes in any order."""
    page = pick(choice, "", "", "<!DOCTYPE html>", "<!doctype html><html><head></head><body>")
    for _ in range(choice.randrange(2, 12)):
        what = choice.randrange(12)
        if what < 4:
            page += f"<{pick(choice, *NAMES)}{language(choice)}{pick(choice, '', '', '', '/')}>"
        elif what < 6:
            page += f"</{pick(choice, *NAMES)}>"
        elif what < 9:
            page += f" {WORD} "
        elif what == 9:
            page += odd_tag(choice)
        elif what == 10:
            page += pick(choice, f"<!-- {WORD} -->", f"<!--> {WORD} -->", f"<!-- {WORD} --!> {WORD}", f"<![CDATA[ > {WORD} ]]>", f"<? > {WORD} ?>",
                         f"<!x {WORD}>", f'<!DOCTYPE a SYSTEM "> {WORD}">', f"</ {WORD}>", "<", "&amp;", f"<{WORD} ")
        else:
            page += pick(choice, f'<script>s="{WORD}</div></svg></noscript>";</script>', f"<script><!-- <script> {WORD} </script> --></script>",
                         f"<style> {WORD} </style>", f"<title> {WORD} <b></title>", f"<textarea> {WORD} </textarea>")
    return page


def nested(choice):
    """Elements that nest wrongly."""
    page = pick(choice, "", "<!DOCTYPE html>", "<!DOCTYPE html><html lang=en><head><title>t</title></head><body>")
    last = []
    for _ in range(choice.randrange(3, 14)):
        what = choice.randrange(10)
        if what < 4:
            last.append(pick(choice, *NESTED))
            page += f"<{last[-1]}{language(choice)}>"
        elif what < 6:
            page += f"</{last.pop(choice.randrange(len(last))) if last and choice.random() < 0.8 else pick(choice, *NESTED)}>"
        else:
            page += f" {WORD} "
    return page


LOOSE = """a b i em nobr font code samp p p div span li ul ol dl dd dt form h1 h2 button ruby rt object section address pre
table table tr tr td td th caption tbody colgroup select option optgroup svg g math template noscript textarea style script
title html body head frameset image applet marquee mi desc foreignObject iframe hr br input plaintext xmp label""".split()


def loose(choice):
    """Elements that nest wrongly, and then others, of which some are left alone or name a language."""
    page = pick(choice, "<!DOCTYPE html>", "<!DOCTYPE html><html lang=en><head><title>t</title></head><body>", "<!DOCTYPE html><body lang=de>",
                "", f"<!DOCTYPE html><html lang=en><head> {WORD} </head><body class=c>")
    page += pick(choice, "x<b><i></b>y</i>", "x<b><p></b>y</p>", "x<a>l<a>m</a></a>", "x<a>l<a>m", "<p>x</br>", "x<b><font></b>",
                 "x<table><tr><td><b></td></tr></table>y")
    names = LOOSE[:choice.choice((31, 42, len(LOOSE)))]
    last = []
    for _ in range(choice.randrange(3, 18)):
        what = choice.randrange(10)
        if what < 4:
            last.append(pick(choice, *names))
            attribute = language(choice) if choice.random() < 0.15 else ""
            if choice.random() < 0.05:
                attribute += pick(choice, ' class="c donthyphenate"', " translate=no")
            page += f"<{last[-1]}{attribute}>"
        elif what < 7:
            if last and choice.random() < 0.85:
                page += f"</{last.pop(pick(choice, -1, choice.randrange(len(last))))}>"
            else:
                page += f"</{pick(choice, *names)}>"
        else:
            page += f" {WORD} "
    return page + f" {WORD} </code> {WORD} "


def xml_page(choice):
    """Elements, sections, instructions, comments and document types of XML, mostly well-formed."""
    head = pick(choice, "", '<?xml version="1.0"?>', '\ufeff<?xml version="1.0"?>', "\ufeff", '<?xml version="1.0" encoding="UTF-8"?>\n')
    head += pick(choice, "", "<!DOCTYPE html>", f'<!DOCTYPE a [<!ATTLIST a t CDATA "]> {WORD}">]>', f'<!DOCTYPE a SYSTEM "x> {WORD} ">',
                 f"<!DOCTYPE a [<!-- ]> {WORD} -->]>", f"<!-- {WORD} -->", f"<?x > {WORD} ?>", f'<!DOCTYPE a [<!ENTITY e "> {WORD}">]>',
                 '<!DOCTYPE html PUBLIC "-//W3C//DTD XHTML 1.0 Strict//EN" "http://www.w3.org/TR/xhtml1/DTD/xhtml1-strict.dtd">')

    def content(depth):
        page = ""
        for _ in range(choice.randrange(1, 5)):
            what = choice.randrange(10)
            if what < 4:
                page += f" {WORD} "
            elif what < 7 and depth:
                name = pick(choice, "p", "div", "span", "i", "title", "script", "style", "noscript", "svg", "g", "td", "_x", "X", "code", "textarea")
                tag = name + pick(choice, "", "", ' xml:lang="de"', ' lang="en"', ' xml:lang="fr" lang="nl"', f' title="> {WORD}"')
                page += f"<{tag}/>" if choice.random() < 0.15 else f"<{tag}>{content(depth - 1)}</{name}>"
            elif what == 7:
                page += pick(choice, f"<![CDATA[ {WORD} ]]>", f"<![CDATA[ > {WORD} ]]>", f"<![CDATA[</script> {WORD}]]>", f"<![CDATA[<script> {WORD}]]>")
            elif what == 8:
                page += pick(choice, f"<!-- {WORD} > -->", f"<!--> {WORD} -->", f"<!-- </script></title> {WORD} -->", f"<!---> {WORD} -->")
            else:
                page += pick(choice, f"<?x {WORD} ?>", f"<?x > {WORD} ?>", "&lt;", "&#65;")
        return page
    return f'{head}<a xmlns="x"{pick(choice, "", ""," xml:lang=" + chr(34) + "de" + chr(34))}>{content(3)}</a>'


class Valid:
    """A valid page of HTML, or one of XHTML that browsers read as HTML too."""

    def __init__(self, choice, is_xml):
        self.choice, self.is_xml = choice, is_xml

    def attribute(self):
        code = pick(self.choice, "", "", "", "de", "en", "fr", "nl", "sv")
        if not code:
            return pick(self.choice, "", "", ' class="c"', ' title="a &gt; b"')
        return f' xml:lang="{code}" lang="{code}"' if self.is_xml else pick(self.choice, f' lang="{code}"', f" lang='{code}'", f" lang={code}")

    def element(self, name, content, may_end=True):
        end = f"</{name}>" if self.is_xml or may_end or self.choice.random() < 0.4 else ""
        return f"<{name}{self.attribute()}>{content}{end}"

    def void(self, tag):
        return f"<{tag} />" if self.is_xml else f"<{tag}>"

    def script(self):
        if self.is_xml:
            return pick(self.choice, '<script src="x.js"></script>', f"<script>//<![CDATA[\nif (1 < 2) {WORD}(\"</p>\");\n//]]></script>",
                        "<style>p > b { color: red }</style>")
        return pick(self.choice, f'<script>if (a<<b && c > d) e("{WORD} </p>");</script>', f"<script><!--\n{WORD}\n--></script>", "<style>p > b {}</style>",
                    f'<script>"<!--<script>{WORD}</script>-->"</script>')

    def phrase(self, depth, in_link=False, within=False):
        """Phrases. A button stands in none: one in a formatting element that names a language would be left alone."""
        page = ""
        for _ in range(self.choice.randrange(1, 4)):
            what = self.choice.randrange(14)
            if what < 5 or not depth:
                page += f" {WORD} "
            elif what < 8:
                page += self.element(pick(self.choice, "b", "i", "em", "span", "code", "kbd", "q", "sub", "u"), self.phrase(depth - 1, in_link, True))
            elif what == 8 and not in_link:
                page += self.element("a", self.phrase(depth - 1, True, True))
            elif what == 9:
                page += self.void(pick(self.choice, "br", 'img alt="a" src="b"'))
            elif what == 10:
                page += pick(self.choice, f'<svg viewBox="0 0 1 1"><title> {WORD} </title><path d="M0"/><g><text> {WORD} </text></g></svg>',
                             f"<math><mi>x</mi><mo>=</mo><mtext> {WORD} </mtext></math>",
                             f"<svg><style>p {{}}</style><desc> {WORD} </desc><use href=\"#a\"/></svg>",
                             f"<svg><foreignObject><div><p> {WORD} </p></div></foreignObject></svg>")
            elif what == 11:
                page += pick(self.choice, f"<!-- {WORD} > -->", "&amp; ", "&#65; ")
            elif what == 12 and not within:
                page += self.element("button", f" {WORD} ")
            else:
                page += f" {WORD} "
        return page

    def rows(self, depth):
        page = ""
        for _ in range(self.choice.randrange(1, 3)):
            cells = "".join(self.element(pick(self.choice, "td", "th"), self.flow(depth - 1) if self.choice.random() < 0.2 else self.phrase(1), False) + "\n"
                            for _ in range(self.choice.randrange(1, 3)))
            page += self.element("tr", cells, False)
        return page

    def table(self, depth):
        if self.is_xml or self.choice.random() < 0.5:
            parts = self.element("tbody", self.rows(depth), False)
            if self.choice.random() < 0.5:
                parts = self.element("thead", self.rows(depth), False) + parts
        else:
            parts = self.rows(depth)
        if self.choice.random() < 0.3:
            parts = self.element("colgroup", self.void("col"), False) + parts
        if self.choice.random() < 0.3:
            parts = self.element("caption", self.phrase(1), False) + parts
        return self.element("table", parts)

    def listing(self, depth):
        if self.choice.random() < 0.3:
            return self.element("dl", "".join(self.element(name, self.phrase(1), False) for name in ("dt", "dd") * self.choice.randrange(1, 3)))
        items = "".join(self.element("li", self.phrase(1) + (self.flow(depth - 1) if self.choice.random() < 0.3 else ""), False) + "\n"
                        for _ in range(self.choice.randrange(1, 4)))
        return self.element(pick(self.choice, "ul", "ol"), items)

    def flow(self, depth):
        page = ""
        for _ in range(self.choice.randrange(1, 4)):
            what = self.choice.randrange(12)
            if what < 4 or depth <= 0:
                # The end tag of a paragraph may be left out where a block or the end of its element comes next.
                page += self.element("p", self.phrase(2), True)
            elif what < 6:
                page += self.element(pick(self.choice, "div", "section", "blockquote", "article", "figure"), self.flow(depth - 1))
            elif what == 6:
                page += self.element(pick(self.choice, "h1", "h2", "h3", "pre"), self.phrase(1))
            elif what == 7:
                page += self.table(depth)
            elif what == 8:
                page += self.listing(depth)
            elif what == 9:
                page += self.script()
            elif what == 10:
                page += pick(self.choice, f"<noscript><p> {WORD} </p></noscript>", '<noscript><img src="a" alt="b"/></noscript>', f"<template><p> {WORD} </p></template>",
                             f"<select><option>{WORD}</option><option>{WORD}</option></select>", f"<form><textarea rows=\"1\" cols=\"1\"> {WORD} </textarea></form>",
                             self.void("hr"))
            elif self.is_xml:
                page += self.element("p", self.phrase(1))
            else:
                page += self.element("p", self.phrase(2), False) + pick(self.choice, self.listing(depth), self.element("div", f" {WORD} "), self.table(depth),
                                                                        self.element("p", self.phrase(1)))
        return page

    def page(self):
        head = self.void('meta charset="utf-8"') + f"<title> {WORD} </title>" + (self.script() if self.choice.random() < 0.4 else "")
        body = self.flow(3)
        if self.is_xml:
            start = pick(self.choice, '<?xml version="1.0" encoding="utf-8"?>\n', "", '\ufeff<?xml version="1.0"?>')
            kind = pick(self.choice, "<!DOCTYPE html>\n", '<!DOCTYPE html PUBLIC "-//W3C//DTD XHTML 1.1//EN" "http://www.w3.org/TR/xhtml11/DTD/xhtml11.dtd">\n')
            return f'{start}{kind}<html xmlns="http://www.w3.org/1999/xhtml"{self.attribute()}>\n<head>\n{head}</head>\n<body{self.attribute()}>\n{body}</body>\n</html>\n'
        if self.choice.random() < 0.2:
            return f"<!DOCTYPE html>{head}<p>a</p>{body}"
        return f"{pick(self.choice, '', chr(0xfeff))}<!DOCTYPE html>\n<html{self.attribute()}>\n<head>\n{head}</head>\n<body{self.attribute()}>\n{body}</body>\n</html>\n"


KINDS = {
    "hostile": hostile,
    "nested": nested,
    "loose": loose,
    "XML": xml_page,
    "valid HTML": lambda choice: Valid(choice, False).page(),
    "valid XHTML": lambda choice: Valid(choice, True).page(),
}


# ---- runs

def run(program, options, pages):
    """The results of the program for some pages, in one run."""
    with tempfile.TemporaryDirectory() as folder:
        paths = [os.path.join(folder, f"{number}.html") for number in range(len(pages))]
        for path, page in zip(paths, pages):
            with open(path, "wb") as file:
                file.write(page)
        ran = subprocess.run([program, *options, "--lang", OTHERWISE, "--in-place", *paths], capture_output=True, check=False)
        if ran.returncode:
            sys.exit(f"status {ran.returncode}: {ran.stderr.decode()}")
        written = []
        for path in paths:
            with open(path, "rb") as file:
                written.append(file.read())
    return written


def main():
    parser = argparse.ArgumentParser(prog="tests/trees.py")
    parser.add_argument("program")
    parser.add_argument("--pages", type=int, default=400, metavar="N")
    parser.add_argument("--seed", type=int, default=1, metavar="N")
    given = parser.parse_args()
    with tempfile.TemporaryDirectory() as folder:
        for code, place in PLACES.items():
            with open(os.path.join(folder, f"{code}.txt"), "w", encoding="utf-8") as file:
                # The second exception would put a mark before a byte order mark.
                file.write(f"hyphenation 1 standard\nlanguage {code}\nminima 0 0\ne \ufeff 0\ne {WORD} {place}\n")
        pages = []
        for kind, make in KINDS.items():
            choice = random.Random(f"{kind} {given.seed}")
            pages += [(kind, make(choice).encode()) for _ in range(given.pages)]
        options = ["--dictionaries", folder]
        texts = [page for _, page in pages]
        written = run(given.program, [*options, "--mark", MARK], texts)
        once = run(given.program, options, texts)
        twice = run(given.program, options, once)
        for (kind, page), one, again in zip(pages, written, zip(once, twice)):
            compare(kind, page, one, again)
    for kind, marks in counts.items():
        print(f"{kind}: {given.pages} pages, {marks} marks")
    print(f"{passed} passed, {failed} failed")
    return 1 if failed or not passed else 0


if __name__ == "__main__":
    sys.exit(main())
