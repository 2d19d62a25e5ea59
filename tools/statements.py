"""The statements of lemmas for scripts: the types of the declarations of a file of specs or proofs that end in a fact, each in
a form that two files share where they state the same."""
import re

WORD = re.compile(r"[(){}\[\],;]|[^\s(){}\[\],;]+")
MODIFIERS = r"(?:(?:abbrev|opaque|private|pub|unfoldable) )*"
DECLARED = re.compile(rf" *({MODIFIERS})([^\s:(){{}}=.]+) : (.*)")
MODULE = re.compile(r" *(?:pub )?module \S+ (.*) where")
USE = re.compile(r"^ *(pub )?use ([\w.+-]+?)(?:\.\{([^}]*)\}| as (\S+))", re.M)
# The signs of facts.
FACT = re.compile("[≡≢≤<↔¬⊥⊎∈]")


def depth_of(line):
    return len(line) - len(line.lstrip())


def uses_of(text):
    """The `use` lines of a file: whether it passes the names on, the module, and pairs of a name there and its name here. The
    list of pairs is empty, and the last part a name of the module, where the line names the module as a whole."""
    for public, module, names, alias in USE.findall(text):
        pairs = [(it.split(" as ")[0].strip(), it.split(" as ")[-1].strip()) for it in names.split(",") if it.strip()]
        yield bool(public), module, pairs, alias


def declarations_of(text):
    """The declarations of a file: whether it is public, its name, its type with the parameters of the modules around it before
    it, and its line."""
    lines, around, at = text.split("\n"), [], 0
    while at < len(lines):
        line, begun = lines[at], at
        at += 1
        if not line.strip() or line.lstrip().startswith("--"):
            continue
        depth = depth_of(line)
        while around and depth <= around[-1][0]:
            around.pop()
        module, declared = MODULE.fullmatch(line), DECLARED.fullmatch(line)
        if module:
            around.append((depth, module.group(1)))
        elif declared and depth == (around[-1][0] + 2 if around else 0):
            said = [parameters for _, parameters in around] + [declared.group(3)]
            while at < len(lines) and lines[at].strip() and depth_of(lines[at]) > depth:
                if not lines[at].lstrip().startswith("--"):
                    said.append(lines[at].strip())
                at += 1
            yield "pub" in declared.group(1), declared.group(2), " ".join(said), begun + 1


def words_of(text):
    for word in WORD.findall(text):
        if len(word) > 1 and word.endswith("."):
            yield from (word[:-1], ".")
        else:
            yield word


def grouped(words, end=None):
    """The words up to a closing bracket, with a list for what is in brackets."""
    items = []
    for word in words:
        if word == end:
            break
        items.append(grouped(words, ")" if word == "(" else "}") if word in "({" else word)
    return items


def bound_by(item):
    """The names that a part in brackets binds, as `(a b : ℕ)` does."""
    names = item[:item.index(":")] if isinstance(item, list) and ":" in item else []
    return names if all(isinstance(name, str) for name in names) else []


def flat(items):
    for item in items:
        if isinstance(item, list):
            yield from flat(item)
        else:
            yield item


def values_of(items):
    """The bound names of values, and not of types."""
    for item in items:
        if isinstance(item, list):
            names = bound_by(item)
            if "Type" not in flat(item[len(names) + 1:]):
                yield from names
            yield from values_of(item)


def is_fact(items):
    """Whether a type ends in a fact: its last part has a sign of facts, or speaks of a value. A definition's type doesn't."""
    last = max((at for at, item in enumerate(items) if item == "→"), default=-1)
    end, values = list(flat(items[last + 1:])), set(values_of(items))
    return "Type" not in end and any(FACT.search(word) or word.split(".")[0] in values for word in end)


class Form:
    """The common form of a type: its bound names are numbered, and each other name is the one that it means."""

    def __init__(self, meanings):
        self.meanings, self.bound, self.count = meanings, {}, 0

    def bind(self, name):
        self.bound[name] = f"v{self.count}"
        self.count += 1
        return self.bound[name]

    def name(self, word):
        first, dot, rest = word.partition(".")
        for names in (self.bound, self.meanings):
            if word in names:
                return names[word]
            if dot and first in names:
                return f"{names[first]}.{rest}"
        return word

    def text(self, items):
        said, rest = [], list(items)
        while rest:
            item = rest.pop(0)
            names = bound_by(item)
            if names:
                of = self.text(item[len(names) + 1:])
                said += [f"[{self.bind(name)} : {of}]" for name in names]
                if rest[:1] == ["→"]:
                    rest.pop(0)
            elif isinstance(item, list):
                said.append(f"({self.text(item)})")
            elif item == "λ":
                said.append(item)
                while rest and rest[0] != ".":
                    one = rest.pop(0)
                    said.append(self.text([one]) if isinstance(one, list) else self.bind(one))
            else:
                said.append(self.name(item))
        return " ".join(said)


def meanings_of(text, crate, crates):
    """The meanings of the names of a file that aren't the kit's, or have another name there. A name of one of the crates has
    its crate before it."""
    meanings = {}
    for _, module, pairs, alias in uses_of(text):
        owner = module.split(".")[1] if module.startswith("Rattle.") else ""
        before = f"{owner}:" if owner in crates else ""
        meanings |= {here: before + there for there, here in pairs if before or there != here}
        if alias and before:
            meanings[alias] = before + module.split(".")[-1]
    own = [name for _, name, _, _ in declarations_of(text)] + re.findall(rf"^{MODIFIERS}(?:record|data) ([^\s:]+)", text, re.M)
    return {name: f"{crate}:{name}" for name in own if crate} | meanings


def statements_of(text, crate="", crates=()):
    """The statements of a file: whether the lemma is public, its name, its common form, and its line."""
    meanings = meanings_of(text, crate, crates)
    for public, name, said, line in declarations_of(text):
        items = grouped(words_of(said))
        if is_fact(items):
            yield public, name, Form(meanings).text(items), line


class Kit:
    """The lemmas of the standard library that crates cite, by their statements: their modules and names."""

    def __init__(self, folder):
        self.folder, self.passed = folder, {}
        self.files = {}
        for path in sorted(folder.rglob("*.antt"), key=lambda path: len(path.parts)):
            parts = path.relative_to(folder).with_suffix("").parts
            for at in range(len(parts)):
                self.files.setdefault(parts[at:], path)
        self.lemmas = {}
        proofs = folder / "std/proofs"
        for path in [*sorted(proofs.glob("lemmas/**/*.antt")), *sorted(proofs.glob("Math/**/*.antt")), proofs / "Common.antt"]:
            module = ".".join(path.relative_to(proofs).with_suffix("").parts)
            for name, said in self.exported(path).items():
                self.lemmas.setdefault(said, f"{module}.{name}")

    def exported(self, path):
        """The statements that a file of the kit exports, its own and those that it passes on, by their names."""
        if path not in self.passed:
            self.passed[path] = found = {}
            text = path.read_text() if path.exists() else ""
            found |= {name: said for public, name, said, _ in statements_of(text) if public}
            for public, module, pairs, _ in uses_of(text):
                # A module's name begins with its library's, which is no folder but in a crate.
                other = self.files.get(tuple(module.split(".")[1:]))
                if public and other:
                    there = self.exported(other)
                    found |= {here: there[name] for name, here in pairs if name in there}
        return self.passed[path]
