"""The authors and licences that files of patterns name. Hyph-utf8 names them beside its plain files and in the head of a TeX
file. LibreOffice names them in the comments at the head of a `.dic`. Where a `.dic` has none of these, the file of copyrights of Debian's
package says it."""

import os
import re

# Names of licences, and sentences, by which a file may be passed on in another form.
ALLOWING = re.compile(
    r"\b(LPPL|LaTeX Project Public Licen[cs]e|MIT|BSD|L?GPL|General Public Licen[cs]e|MPL|Mozilla Public Licen[cs]e|Apache|"
    r"CC0|CC[- ]BY(?![- ](NC|ND))|[Pp]ublic [Dd]omain)\b|"
    r"[Pp]ermission is hereby granted|[Uu]nlimited copying and redistribution|"
    r"[Cc]opying and distribution of this file, with or without modification, are permitted|"
    r"may be used, modified, copied, distributed|may be freely distributed|may freely use, copy, modify and/or distribute")
# Sentences by which it may not.
FORBIDDING = re.compile(
    r"[Nn]on-?commercial|\bCC[- ]BY[- ](NC|ND)|(must|may|can|shall)( ?not|'t) be (re)?distributed|not for redistribution|"
    r"redistribution is (not allowed|not permitted|prohibited|forbidden)")
KEYWORDS = re.compile(rb"(COMPOUND)?(LEFT|RIGHT)HYPHENMIN\b|NOHYPHEN\b|NEXTLEVEL\b")


def head_of_plain(path):
    """The text of hyph-utf8 beside a plain file; an empty one if there is none."""
    beside = re.sub(r"\.(pat|hyp)\.txt$", ".lic.txt", path)
    if beside == path or not os.path.isfile(beside):
        return ""
    with open(beside, encoding="utf-8") as file:
        return file.read()


def head_of_tex(path):
    """The comments at the beginning of a TeX file."""
    head = []
    with open(path, encoding="utf-8") as file:
        for line in file:
            if line.strip() and not line.startswith("%"):
                break
            head.append(line)
    return "".join(head)


def head_of_dic(path):
    """The comments of a `.dic` before its first pattern, in the charset of its first line."""
    with open(path, "rb") as file:
        charset, *lines = file.read().splitlines()
    head = []
    for line in lines:
        if line.startswith((b"%", b"#")):
            head.append(line)
        elif line.strip() and not KEYWORDS.match(line):
            break
    name = charset.decode("ascii", "replace").strip().lower().replace("microsoft-cp", "cp")
    try:
        return b"\n".join(head).decode(name)
    except (LookupError, UnicodeDecodeError):
        return b"\n".join(head).decode("utf-8", "replace")


def paragraphs_of(copyrights, name):
    """The paragraphs of a file of copyrights in Debian's form that are for the `.dic` of a language, such as pt_BR, by the name
    of the file or of the folder that it comes from. That of the file comes before that of the folder."""
    by_file, by_folder = [], []
    for paragraph in copyrights.split("\n\n"):
        field = re.match(r"Files:((?:.*\n)(?: .*\n)*)", paragraph + "\n")
        for pattern in field.group(1).split() if field else []:
            if pattern.endswith(f"/hyph_{name}.dic"):
                by_file.append(paragraph.strip("\n"))
            elif pattern.endswith(f"/{name}/*"):
                by_folder.append(paragraph.strip("\n"))
    return "\n\n".join(by_file or by_folder)


def head_of_package(path, package):
    """The text in which Debian's package says it of a `.dic` in /usr/share/hyphen; an empty one if it says nothing."""
    folder, file = os.path.split(path)
    copyrights = f"/usr/share/doc/{package}/copyright"
    if folder != "/usr/share/hyphen" or not file.endswith(".dic") or not os.path.isfile(copyrights):
        return ""
    with open(copyrights, encoding="utf-8") as text:
        found = paragraphs_of(text.read(), file[len("hyph_"):-len(".dic")])
    return f"Debian's package {package} says of this file, in {copyrights}:\n\n{found}" if found else ""


HEADS = {".txt": head_of_plain, ".tex": head_of_tex, ".dic": head_of_dic}


def heads_of(paths, package):
    """The heads of these files, each once; an empty one says that a file has none. A `.dic` of Debian's package whose head names
    no licence has what the package says behind it."""
    heads = []
    for path in paths:
        head = HEADS[os.path.splitext(path)[1]](path)
        heads.append(head if why_not(head) is None else "\n".join(filter(None, (head, head_of_package(path, package)))))
    return list(dict.fromkeys("\n".join(line.rstrip() for line in head.splitlines()).strip("\n") for head in heads))


def licence_part(head):
    """The part of a head that says the licence: that of hyph-utf8 has a key for it, and in others it is anywhere."""
    found = re.search(r"^%? ?licen[cs]e:(.*\n?(?:%?  .*\n?|%?\n)*)", head, re.MULTILINE)
    return found.group(1) if found else head


def why_not(head):
    """Why a file with that head can't be passed on, or None if it can."""
    text = re.sub(r"\s*\n[%#]?\s*", " ", licence_part(head))
    if FORBIDDING.search(text):
        return "its licence forbids it"
    return None if ALLOWING.search(text) else "no licence is named"
