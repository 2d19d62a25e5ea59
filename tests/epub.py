"""Books for tests/epub, and what differs between two of them.

- `epub.py make FOLDER` writes good books, hostile ones, and damaged ones.
- `epub.py differences OLD NEW` writes a line for each difference. A page is written as it is now, with - for a soft hyphen.
- `epub.py whole OLD NEW` writes which books of a folder are neither as they were in another one nor whole.
"""

import pathlib
import sys
import zipfile

CONTAINER = """<?xml version="1.0"?>
<container version="1.0" xmlns="urn:oasis:names:tc:opendocument:xmlns:container">
<rootfiles><rootfile full-path="book/package.opf" media-type="application/oebps-package+xml"/></rootfiles>
</container>
"""
PACKAGE = """<?xml version="1.0" encoding="utf-8"?>
<package version="3.0" unique-identifier="id" xmlns="http://www.idpf.org/2007/opf">
<metadata xmlns:dc="http://purl.org/dc/elements/1.1/">
<dc:identifier id="id">urn:uuid:0f0b1a52-5d3c-4f6e-9a55-3c2f8b7f6a10</dc:identifier>
<dc:title>The firkin</dc:title>{languages}
<meta property="dcterms:modified">2026-01-01T00:00:00Z</meta>
</metadata>
<manifest>
<item id="ncx" href="toc.ncx" media-type="application/x-dtbncx+xml"/>
<item id="nav" href="nav.xhtml" media-type="application/xhtml+xml" properties="scripted nav"/>
<item id="style" href="style.css" media-type="text/css"/>
<item id="font" href="font.otf" media-type="font/otf"/>
{items}
</manifest>
<spine toc="ncx">{spine}</spine>
</package>
"""
PAGE = """<?xml version="1.0" encoding="utf-8"?>
<html xmlns="http://www.w3.org/1999/xhtml"{language}><head><title>firkin</title></head>
<body><p>{text}</p></body></html>
"""
NCX = """<ncx xmlns="http://www.daisy.org/z3986/2005/ncx/" version="2005-1">
<navMap><navPoint><text>firkin</text></navPoint></navMap></ncx>
"""
ENCRYPTION = """<encryption xmlns="urn:oasis:names:tc:opendocument:xmlns:container" xmlns:enc="http://www.w3.org/2001/04/xmlenc#">
<enc:EncryptedData><enc:EncryptionMethod Algorithm="{method}"/>
<enc:CipherData><enc:CipherReference URI="{path}"/></enc:CipherData></enc:EncryptedData>
</encryption>
"""
FONTS = "http://www.idpf.org/2008/embedding"
AES = "http://www.w3.org/2001/04/xmlenc#aes256-cbc"
LAUGHS = '<!DOCTYPE package [<!ENTITY a "ha">' + "".join(
    f'<!ENTITY {name} "{f"&{before};" * 10}">' for before, name in zip("abcdefghij", "bcdefghijk")) + "]>"
LANGUAGES = "<dc:language> en-gb </dc:language><dc:language>de</dc:language>"


def page(text, language=""):
    return PAGE.format(text=text, language=f' xml:lang="{language}"' if language else "")


def files(pages, languages=LANGUAGES):
    """The files of a book by their names, in an order in which `mimetype` is not the first one. `pages` has an address for each
    page, with its name in the book and its content."""
    items = "".join(f'<item id="p{at}" href="{href}" media-type="application/xhtml+xml"/>\n' for at, href in enumerate(pages))
    spine = "".join(f'<itemref idref="p{at}"/>' for at in range(len(pages)))
    return {
        "META-INF/container.xml": CONTAINER,
        "mimetype": "application/epub+zip",
        "book/package.opf": PACKAGE.format(languages=languages, items=items, spine=spine),
        "book/toc.ncx": NCX,
        "book/nav.xhtml": page("firkin"),
        "book/style.css": "/* firkin */",
        "book/font.otf": bytes(range(256)) * 8,
        **dict(pages.values()),
    }


ONE = {"one.xhtml": ("book/one.xhtml", page("Firkin, firkin"))}
PAGES = {
    **ONE,
    "zwei.xhtml": ("book/zwei.xhtml", page("firkin", "de")),
    "./text/Gr%C3%B6%C3%9Fe%203.xhtml": ("book/text/Größe 3.xhtml", page("<i>firkin</i> <code>firkin</code>")),
    "../upper.xhtml": ("upper.xhtml", page("no word")),
}


class Entry(zipfile.ZipInfo):
    """A file of an archive, with a time, permissions and all that an archive may say of it."""

    def __init__(self, name, number=0):
        super().__init__(name, (2001 + number % 20, 2, 3, 4, 5, 6))
        self.compress_type = zipfile.ZIP_DEFLATED
        self.external_attr = (0o100640 + number % 8) << 16
        self.comment = f"number {number}".encode()
        self.extra = b"\x55\x54\x05\x00\x01" + bytes([number % 256]) * 4
        if name == "book/style.css":
            # the field of large sizes, which it has without need
            self.extra = b"\x01\x00\x10\x00" + bytes(16) + self.extra
        self.create_system = number % 4


class Unflagged(Entry):
    """A file whose name is UTF-8, and no flag says so."""

    def _encodeFilenameFlags(self):
        return self.filename.encode(), 0


def write(path, contents, entry=Entry, comment=b""):
    """Writes a book. A name that is there twice is written twice."""
    with zipfile.ZipFile(path, "w") as archive:
        archive.comment = comment
        for number, (name, content) in enumerate(contents.items() if isinstance(contents, dict) else contents):
            archive.writestr(entry(name, number), content)


def of_directory(path, name, at, value):
    """Puts bytes into the entry of a file in the directory of an archive. The name begins at byte 46 of the entry."""
    content = path.read_bytes()
    begin = content.rindex(b"PK\x01\x02", 0, content.rindex(name.encode()))
    path.write_bytes(content[:begin + at] + value + content[begin + at + len(value):])


def make(folder):
    whole = files(PAGES)
    whole["META-INF/encryption.xml"] = ENCRYPTION.format(method=FONTS, path="book/font.otf")
    whole["book/other.xhtml"] = page("firkin")
    whole["book/empty/"] = b""
    write(folder / "good.epub", whole, comment=b"a book")
    with zipfile.ZipFile(folder / "good.epub", "a") as archive:
        stored = Entry("book/stored.bin", 20)
        stored.compress_type = zipfile.ZIP_STORED
        archive.writestr(stored, b"firkin")
        # (writing gives permissions to a file that has none)
        stored.external_attr = 0
    write(folder / "unflagged.epub", files(PAGES), Unflagged)
    many = {f"{at}.xhtml": (f"book/{at}.xhtml", page("firkin", "qaa")) for at in range(4001)}
    write(folder / "many.epub", files(many))
    write(folder / "none.epub", files({}))
    second = {**ONE, "other.xhtml": ("book/other.xhtml", page("firkin"))}
    write(folder / "two.epub", files(second, "<dc:language>qaa</dc:language>"))
    write(folder / "language.epub", files(ONE, f"<dc:language>--{'a' * 200000}</dc:language>"))
    wrong = {"toc.ncx": ("book/toc.ncx", NCX), "../mimetype": ("mimetype", "firkin")}
    write(folder / "wrong-pages.epub", files({**ONE, **wrong}))
    without = files(ONE)
    del without["mimetype"]
    write(folder / "no-mimetype.epub", without)
    absolute = f"{folder.resolve()}/escaped.xhtml"
    out = {"../../../escaped.xhtml": ("../../escaped.xhtml", page("firkin")), absolute: (absolute, page("firkin"))}
    write(folder / "up.epub", files(out))

    make_hostile(folder / "hostile")
    (folder / "damaged").mkdir()
    content = (folder / "good.epub").read_bytes()
    for at in range(0, len(content), 13):
        (folder / "damaged" / str(at)).write_bytes(content[:at] + bytes([content[at] ^ 1 << at % 8]) + content[at + 1:])


def make_hostile(folder):
    """Writes books that are refused. Each differs from a small good one in what its name says."""
    folder.mkdir()

    def other(name, changed):
        path = folder / f"{name}.epub"
        contents = {**files(ONE), **changed}
        write(path, {key: content for key, content in contents.items() if content is not None})
        return path

    container, package, one, encryption = "META-INF/container.xml", "book/package.opf", "book/one.xhtml", "META-INF/encryption.xml"
    good = files(ONE)
    (folder / "text.epub").write_text("firkin\n")
    (folder / "empty.epub").write_bytes(b"")
    cut = other("cut", {})
    cut.write_bytes(cut.read_bytes()[:-200])
    front = other("front", {})
    front.write_bytes(front.read_bytes()[:200])
    # (before the last two bytes is the place of the directory, from which other places are counted)
    offset = other("offset", {})
    offset.write_bytes(offset.read_bytes()[:-6] + (2**20).to_bytes(4, "little") + b"\0\0")
    other("no-container", {container: None})
    other("bad-container", {container: "<container>\n<rootfiles>"})
    other("charset", {container: '<?xml version="1.0" encoding="none"?><container/>'})
    other("no-rootfile", {container: "<container/>"})
    other("no-package", {package: None})
    other("laughs-container", {container: LAUGHS + "<container>&k;</container>"})
    other("laughs", {package: LAUGHS + "<package>&k;</package>"})
    other("external", {package: '<!DOCTYPE package [<!ENTITY a SYSTEM "file:///etc/passwd">]>' + "<package>&a;</package>"})
    other("parameter", {package: '<!DOCTYPE package [<!ENTITY % a SYSTEM "file:///etc/passwd"> %a;]><package/>'})
    other("large-package", {package: " " * (9 << 20)})
    other("no-page", {one: None})
    other("outside", {package: files({"../../../one.xhtml": ("", "")})[package]})
    other("remote", {package: files({"https://ale.example/one.xhtml": ("", "")})[package]})
    other("no-language", {package: files(ONE, "")[package]})
    other("empty-language", {package: files(ONE, "<dc:language> </dc:language>")[package]})
    other("utf-16", {one: page("firkin").encode("utf-16")})
    other("latin-1", {one: page("ä firkin").encode("latin-1")})
    other("drm", {encryption: ENCRYPTION.format(method=AES, path="book/one.xhtml")})
    other("drm-font", {encryption: ENCRYPTION.format(method=AES, path="book/font.otf")})
    other("drm-page", {encryption: ENCRYPTION.format(method=FONTS, path="book/%6fne.xhtml")})
    other("drm-none", {encryption: ENCRYPTION.format(method="", path="book/one.xhtml").replace(' Algorithm=""', "")})
    other("bad-encryption", {encryption: "<encryption>"})
    other("control", {package: files({"%1b[31m%0a.xhtml": ("", "")})[package]})
    write(folder / "twice.epub", [*good.items(), (one, page("other"))])
    zero = other("zero", {"book/a_b": b""})
    zero.write_bytes(zero.read_bytes().replace(b"book/a_b", b"book/a\0b"))
    for name, at, value in (
            ("locked", 8, b"\x01\x00"), ("method", 10, b"\x0c\x00"), ("crc", 16, b"\x01\x02\x03\x04"),
            ("small", 24, b"\x05\x00\x00\x00"), ("longer", 24, b"\x00\x10\x00\x00"),
            ("large", 24, (256 * 2**20 + 1).to_bytes(4, "little"))):
        of_directory(other(name, {}), one, at, value)
    parts = [f"book/{at}.xhtml" for at in range(17)]
    two = files({"0.xhtml": (parts[0], ""), "1.xhtml": (parts[1], "")})
    for name, contents in (("large-book", dict.fromkeys(parts, b"")), ("large-pages", two)):
        path = other(name, contents)
        for part in parts:
            if part in contents:
                of_directory(path, part, 24, (250 * 2**20).to_bytes(4, "little"))


# ---- comparing


def differences(old, new):
    """The differences of two books, a line each."""
    before, after = (zipfile.ZipFile(path) for path in (old, new))
    if before.comment != after.comment:
        yield f"the comment is {after.comment}"
    if after.namelist() != ["mimetype", *(name for name in before.namelist() if name != "mimetype")]:
        yield f"the files are {after.namelist()}"
    for entry in after.infolist():
        if entry.filename not in before.namelist():
            yield f"{entry.filename}: new: {after.read(entry).decode()}"
            continue
        was, name = before.getinfo(entry.filename), entry.filename
        for field in ("compress_type", "date_time", "comment", "extra", "create_system", "external_attr", "internal_attr"):
            if getattr(was, field) != getattr(entry, field):
                yield f"{name}: its {field} is {getattr(entry, field)}"
        has, had = after.read(entry), before.read(was)
        if has != had:
            text = has.decode().replace("\u00ad", "-")
            same = "" if has.decode().replace("\u00ad", "").encode() == had else ", and more than marks differs"
            yield f"{name}: {text[text.index('<body>') + 6:text.index('</body>')]}{same}"


def whole(old, new):
    """A line that says how many books of a folder were marked, or names those that are neither whole nor as they were."""
    changed = [path for path in sorted(new.iterdir()) if path.read_bytes() != (old / path.name).read_bytes()]
    wrong = [path.name for path in changed if zipfile.ZipFile(path).testzip()]
    return f"not whole: {wrong}" if wrong else f"whole: {len(changed)} marked"


if __name__ == "__main__":
    if sys.argv[1] == "make":
        make(pathlib.Path(sys.argv[2]))
    elif sys.argv[1] == "whole":
        print(whole(*map(pathlib.Path, sys.argv[2:])))
    else:
        print("".join(f"{line}\n" for line in differences(*sys.argv[2:])), end="")
