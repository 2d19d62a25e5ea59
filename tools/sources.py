"""The sources of crates for scripts: the items of the code with their comments and clauses, the names by which users reach
them, and the definitions of `specs/`."""
import re

# Comments, texts and characters of code. A lifetime is none of these.
LITERAL = re.compile(r'//[^\n]*|/\*.*?\*/|\bb?r(?P<hashes>#*)".*?"(?P=hashes)|b?"(?:[^"\\]|\\.)*"'
                     r"|b?'(?:[^'\\\n]|\\[^\n][^'\n]*)'", re.S)
MODIFIERS = r'(?:(?:final|const|unsafe|default|extern "C") )*'
ITEM = re.compile(rf"(pub(?:\([^)]*\))? )?{MODIFIERS}(fn|struct|enum|trait|impl|mod|use|const|static|type|ghost)\b\s*(\w+)?")
CLAUSE = re.compile(r"\b(?:requires|ensures)\*?(?:\s+\w+\*?)?\s*$")
SIGNS = re.compile(r"[()\[\]{};]")
STEPS = {"(": 1, "[": 1, "{": 1, ")": -1, "]": -1, "}": -1}


class Item:
    """An item of code: its kind and name, the lines of its comment, its attributes, and its text up to its braces.

    What is in its braces is `body`, and None where it has none. A trait, an `impl` and a module have members."""

    def __init__(self, kind, name, public, doc, attributes, text, body, line):
        self.kind, self.name, self.public, self.doc, self.attributes = kind, name, public, doc, attributes
        self.text, self.body, self.line = text, body, line
        self.members, self.module = [], None

    def is_law(self):
        """Whether it is a function that does nothing: its contract is a statement."""
        return self.kind == "fn" and self.body is not None and not LITERAL.sub("", self.body).strip()

    def contract(self):
        """The clauses of a function; an empty text where it has none."""
        begins = re.search(r"^\s*(requires|ensures)\b", self.text, re.M)
        return self.text[begins.start():] if begins else ""

    def of(self):
        """The names of the trait and of the type of an `impl`; the first is empty where it is of no trait."""
        trait, _, owner = without_generics(re.sub(r"^(?:unsafe )?impl\b", "", self.text)).rpartition(" for ")
        return name_of(trait), name_of(owner)


def without_generics(text):
    """A text without what is in angle brackets."""
    text = text.replace("->", "  ")
    while re.search(r"<[^<>]*>", text):
        text = re.sub(r"<[^<>]*>", "", text)
    return text


def name_of(path):
    """The last name of the path of a type or a trait, without a borrow before it."""
    found = re.match(r"\s*&?(?:'\w+ )?(?:mut )?(?:\w+::)*(\w+)", path)
    return found.group(1) if found else path.strip()


def closing(plain, at):
    """Where the bracket closes that opens at a place."""
    depth = 0
    for sign in SIGNS.finditer(plain, at):
        depth += STEPS.get(sign.group(), 0)
        if depth == 0:
            return sign.start()
    raise ValueError("a bracket does not close")


def end_of(kind, plain, at, end):
    """Where an item ends, and where its braces open, or None where it has none. Those of clauses are not meant."""
    clause_end = at
    while True:
        sign = SIGNS.search(plain, at, end)
        if sign is None:
            raise ValueError(f"an item of the kind {kind} does not end: {plain[at:at + 60]!r}")
        at = sign.start()
        if sign.group() == ";":
            return at + 1, None
        close = closing(plain, at)
        if sign.group() == "{" and kind not in ("use", "const", "static", "type", "ghost"):
            if kind != "fn" or not CLAUSE.search(plain, clause_end, at):
                return close + 1, at
            clause_end = close + 1
        at = close + 1


def dedented(text, indent):
    """A text of several lines, the first of which had that indent, without it."""
    first, *others = text.strip().split("\n")
    return "\n".join([first, *(line[indent:] if not line[:indent].strip() else line for line in others)])


def items_of(text, plain, at, end, head):
    """The items between two places of a file, which `plain` has without comments and texts. The lines of a comment `//!`
    go to the list `head`."""
    found, doc, attributes = [], [], []
    while at < end:
        stop = text.find("\n", at, end)
        stop = end if stop < 0 else stop
        bare = text[at:stop].strip()
        if not bare or bare.startswith("//"):
            if re.match(r"///(?!/)", bare):
                doc.append(bare[4:])
            elif bare.startswith("//!"):
                head.append(bare[4:])
            at = stop + 1
            continue
        at += len(text[at:stop]) - len(text[at:stop].lstrip())
        if text[at] == "#":
            close = closing(plain, plain.index("[", at))
            attributes.append(text[at:close + 1])
            at = close + 1
            continue
        said = ITEM.match(text, at)
        begin, kind = at, said.group(2) if said else "macro"
        at, opens = end_of(kind, plain, at, end)
        if said:
            indent = begin - text.rfind("\n", 0, begin) - 1
            item = Item(kind, said.group(3), (said.group(1) or "").strip() == "pub", doc, attributes,
                        dedented(text[begin:at if opens is None else opens], indent),
                        None if opens is None else dedented(text[opens + 1:at - 1], indent), text.count("\n", 0, begin) + 1)
            if opens is not None and kind in ("trait", "impl", "mod"):
                item.members = items_of(text, plain, opens + 1, at - 1, [])
            if not any(attribute.startswith("#[cfg(test)") for attribute in attributes):
                found.append(item)
        doc, attributes = [], []
    return found


def leaves_of(tree):
    """The paths that a `use` names, each with the name that it gets."""
    tree = re.sub(r"\s+", " ", tree).strip()
    group = re.fullmatch(r"(.*?)(?:::)?\{(.*)\}", tree)
    if not group:
        path, _, name = tree.partition(" as ")
        path = path.removesuffix("::self")
        yield tuple(path.split("::")), name or path.split("::")[-1]
        return
    depth, part = 0, ""
    for sign in group.group(2) + ",":
        depth += {"{": 1, "}": -1}.get(sign, 0)
        if sign == "," and depth == 0:
            if part.strip():
                for path, name in leaves_of("::".join(filter(None, [group.group(1), part.strip()]))):
                    yield path, name
            part = ""
        else:
            part += sign


class Module:
    """A module of a crate: its path in the crate, the lines of the comment at its head, its items and its modules."""

    def __init__(self, crate, path, public, head, items, file, above):
        self.crate, self.path, self.public, self.head, self.items = crate, path, public, head, items
        self.file, self.above, self.modules = file, above, {}
        self.named = {item.name: item for item in items if item.kind in ("fn", "struct", "enum", "trait", "const", "static", "type")}
        self.uses = [(item.public, leaf, name) for item in items if item.kind == "use"
                     for leaf, name in leaves_of(re.sub(r"^(pub(\([^)]*\))? )?use |;$", "", item.text))]
        for item in items:
            for one in [item, *(item.members if item.kind in ("trait", "impl") else ())]:
                one.module = self


class Code:
    """The code of a crate in a folder, by its modules."""

    def __init__(self, folder):
        self.name, self.src = folder.name, folder / "src"
        top = next(self.src / name for name in ("lib.rt", "main.rt") if (self.src / name).exists())
        self.root = self.read(top, (), True, None)
        self.modules = list(self.below(self.root))

    def read(self, file, path, public, above):
        text, head = file.read_text(), []
        plain = LITERAL.sub(lambda found: re.sub(r"[^\n]", ".", found.group()), text)
        try:
            items = items_of(text, plain, 0, len(text), head)
        except ValueError as error:
            raise ValueError(f"{file}: {error}") from None
        return self.made(file, path, public, above, head, items)

    def made(self, file, path, public, above, head, items):
        module = Module(self.name, path, public, head, items, file, above)
        for item in items:
            if item.kind != "mod":
                continue
            inner = (*path, item.name)
            if item.body is not None:
                module.modules[item.name] = self.made(file, inner, public and item.public, module, item.doc, item.members)
            else:
                of_module = next(name for name in (self.src.joinpath(*inner).with_suffix(".rt"), self.src.joinpath(*inner, "mod.rt"))
                                 if name.exists())
                module.modules[item.name] = self.read(of_module, inner, public and item.public, module)
        return module

    def below(self, module):
        yield module
        for inner in module.modules.values():
            yield from self.below(inner)


class Sources:
    """The code of all crates, and what their `pub use` lead to."""

    def __init__(self, folders):
        self.codes = {folder.name: Code(folder) for folder in folders}
        self.exported = {}

    def resolved(self, module, path, depth=0):
        """The item or the module that a path leads to from a module, or None where it is of the toolchain."""
        first, *rest = path
        if first in ("crate", "self", "super"):
            at = {"crate": self.codes[module.crate].root, "self": module, "super": module.above}[first]
        elif first in module.modules:
            at = module.modules[first]
        elif first in self.codes and first != module.crate:
            at = self.codes[first].root
        elif first in module.named and not rest:
            return module.named[first]
        else:
            return None
        for step in rest:
            if step == "super":
                at = at.above
            elif step in at.modules:
                at = at.modules[step]
            elif step in at.named:
                at = at.named[step]
            else:
                found = next((leaf for _, leaf, name in at.uses if name == step), None)
                at = self.resolved(at, found, depth + 1) if found and depth < 9 else None
            if not isinstance(at, Module):
                return at
        return at

    def exports(self, crate):
        """The names that users of a crate have: pairs of a public module and a list of names, each with the item or the module
        of this crate or of another one. An item of a public module is there, and else where a `pub use` first names it."""
        if crate in self.exported:
            return self.exported[crate]
        shown, pairs = set(), []

        def visit(module):
            names, inner = [], []
            pairs.append((module, names))
            for item in module.items:
                if item.public and item.name in module.named:
                    names.append((item.name, item))
                elif item.kind == "mod" and item.public:
                    inner.append(module.modules[item.name])
                elif item.kind == "use" and item.public:
                    for leaf, name in leaves_of(re.sub(r"^pub use |;$", "", item.text)):
                        target = self.resolved(module, leaf)
                        if isinstance(target, Module) and target.crate == crate and not target.public:
                            target.public = True
                            inner.append(target)
                        elif target is not None:
                            names.append((name, target))
            for one in inner:
                visit(one)

        visit(self.codes[crate].root)
        for module, names in pairs:
            kept = []
            for name, target in names:
                home = target if isinstance(target, Module) else target.module
                is_elsewhere = home.crate == crate and home.public and home is not module
                if id(target) not in shown and not is_elsewhere:
                    shown.add(id(target))
                    kept.append((name, target))
            names[:] = kept
        self.exported[crate] = pairs
        return pairs

    def implementations(self, crate):
        """The `impl` of a crate: pairs of the names of the trait and the type, and the item."""
        return [(item.of(), item) for module in self.codes[crate].modules for item in module.items if item.kind == "impl"]


    def functions(self, crate):
        """All functions of a crate, also those that users can't name."""
        for module in self.codes[crate].modules:
            for item in module.items:
                for one in [item, *(item.members if item.kind in ("trait", "impl") else ())]:
                    if one.kind == "fn":
                        yield one

    def public_functions(self, crate):
        """The functions that users of a crate can call: those of its public modules, types and traits."""
        types = set()
        for module, names in self.exports(crate):
            for _, item in names:
                if isinstance(item, Module) or item.module.crate != crate:
                    continue
                if item.kind == "fn":
                    yield item
                elif item.kind == "trait":
                    yield from (member for member in item.members if member.kind == "fn")
                elif item.kind in ("struct", "enum"):
                    types.add(item.name)
        private = {item.name for module in self.codes[crate].modules for item in module.items if item.kind == "trait" and not item.public}
        for (trait, owner), one in self.implementations(crate):
            for member in one.members:
                if member.kind == "fn" and (trait not in private if trait else member.public and owner in types):
                    yield member


class Definition:
    """A definition of `specs/`: its name, the sentence above it, and its text."""

    def __init__(self, name, sentence, text):
        self.name, self.sentence, self.text = name, sentence, text


BEGINS = re.compile(r"(?:(?:abbrev|unfoldable|opaque) )?(?:pub )?(?:(?:record|data) )?([^\s:({]+)")


def definitions_of(path):
    """The sentence at the head of a file of `specs/`, and its public definitions."""
    head, found, above, lines = "", [], [], []

    def finish():
        if lines and re.match(r"(?:\w+ )*pub\b(?! mod)", lines[0]):
            name = BEGINS.match(lines[0]).group(1)
            found.append(Definition(name, " ".join(above), "\n".join(lines)))

    is_head = True
    for line in [*path.read_text().splitlines(), ""]:
        if line.startswith("--"):
            if lines:
                finish()
                above, lines = [], []
            above.append(line[2:].strip())
        elif not line.strip() or re.match(r"(use|pub mod)\b", line):
            finish()
            if is_head and above:
                head, is_head = " ".join(above), False
            if lines or not line.strip() or is_head is False:
                above, lines = [], []
        else:
            is_head = False
            if re.match(r"(?:abbrev|unfoldable|opaque|pub|record|data)\b", line) and lines:
                finish()
                above, lines = [], []
            lines.append(line)
    return head, found


def plain(text):
    """Code without comments and layout. Texts in it stay as they are."""
    found, at = [], 0
    for literal in LITERAL.finditer(text):
        found.append(" ".join(text[at:literal.start()].split()))
        if not literal.group().startswith(("//", "/*")):
            found.append(literal.group())
        at = literal.end()
    return " ".join([*found, " ".join(text[at:].split())])


def plain_lines(text):
    """A file of specs or proofs without lines of comments and empty lines. The layout of the others has a meaning."""
    return [line.rstrip() for line in text.splitlines() if line.strip() and not line.lstrip().startswith("--")]
