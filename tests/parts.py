"""The parts of the crates that decide the verdict on a mutant, found by names.

A check of a mutant reads the function that is turned and its proofs, then the parts of its crate and of the crates below that
these name, then the parts that those name, and so on. A name leads to each part of that name in the crate that a path or an
import says, and else in the same crate. So all parts that are read are found, and some more. The parts are:

- a function up to its body, since its callers are proved by its contract. Code alone leads to it. With it goes its body, where
  this decides its type or a constant can be made by it, and in the latter case its proofs;
- a type, a constant, a trait or an `impl`, with what is in it. Each method of a type is a part of its own. Code that calls a
  function of a trait leads to the trait. The type alone leads to an `impl` of a trait of the toolchain: operators and drops
  call it without its name;
- a definition of `specs/`, or of a file of lemmas;
- with each of these, the imports of its file that it names.

The crates above read the public functions of a crate, and its specs but those of `Private`. A struct that has a `Model` and no
public field is its `Value` to them.
"""
import hashlib
import re

from sources import BEGINS, Module, Sources, leaves_of, plain, plain_lines

USES = {".rt": re.compile(r"^[ \t]*(?:pub(?:\([^)]*\))? )?(?:ghost )?use\s([^;]*);", re.M), ".antt": re.compile(r"^use (.*)", re.M)}
# The first name of a path, and the others.
PATH = re.compile(r"(\w+)((?:(?:::|\.) ?[^\s(){}\[\].,:;]+)+)")
CALL = re.compile(r"(?:(?:\.|::) ?)?\w+\(")
METHOD = re.compile(r"(?:\.|::) ?(\w+)")
# Proofs name a function where they cite its contract or its theorem.
CITES = re.compile(r"\.(?:contracts|Met|Statement|Code)\b")
DEFINES = re.compile(r"(?:abbrev|unfoldable|opaque|pub|record|data|module)\b|\S+ :")
# The definitions within a `data` or a `module`.
INNER = re.compile(r"^\s+(?:(?:(?:abbrev|unfoldable|opaque|pub|record|data) )+([^\s:({]+)|(\S+) :)", re.M)
# Attributes that say nothing to the callers of a function, only of its body.
OF_BODIES = re.compile(r"#!?\[(?:tactic|inline|cold)\b")
# The members of a `Model` that speak of the fields.
OF_FIELDS = ("view", "invariant", "inverse", "inverse_ok")
# The files of a function's proofs. Others stay in each copy of the crate (`verdicts.py`).
OF_FUNCTION = ("Answers", "Invariants", "Proof")


def sum_of(*parts):
    """The checksum of texts and numbers."""
    return hashlib.blake2b(repr(parts).encode(), digest_size=16).hexdigest()


def words_of(text):
    """The words of a text; a name with other signs in it is several."""
    return frozenset(re.findall(r"\w+", text))


def said_of(item):
    """The text of an item up to its body, with the attributes that say something to those that name it."""
    return " ".join(plain(text) for text in (*(it for it in item.attributes if not OF_BODIES.match(it)), item.text))


def names_in(crate, words, called):
    """Words as names of a crate, and those that code may call as names of functions, too."""
    return {f"{crate}:{word}" for word in words} | {f"{crate}:{word}()" for word in called}


def crate_of(sources, module, path):
    """The crate of that to which a path leads from a module; the module's own, for what is of the toolchain."""
    found = sources.resolved(module, path)
    if found is None:
        return path[0] if path[0] in sources.codes else module.crate
    return found.crate if isinstance(found, Module) else found.module.crate


class Part:
    """A part of a crate: its checksum, the names in it, and the sets of names each of which leads to it."""

    def __init__(self, where, text, names, needs):
        self.sum, self.names, self.needs = sum_of(where, text), names, needs


class Import:
    """A name that a file imports: its words and signs, and the crate and the words of that for which it stands."""

    def __init__(self, path, name, crate):
        self.text, self.name, self.words = f"{'::'.join(path)} as {name}", words_of(name), words_of(path[-1])
        self.is_of_all, self.signs = name == "*", [] if name == "*" else re.findall(r"[^\w\s◌]+", name)
        self.crate = path[1] if path[0] == "Rattle" else crate
        if path[0] != "Rattle" or "specs" not in path or {"declared", "contracts"} & set(path):
            # the type of a variant
            self.words |= {word for word in words_of(self.text) if word[0].isupper()}

    def is_in(self, text, words):
        return self.name <= words and all(sign in text for sign in self.signs)


class File:
    """A file of code, specs or proofs: its text without imports, and these."""

    def __init__(self, path, crate, sources):
        text, uses = path.read_text(), USES[path.suffix]
        rest = uses.sub("", text)
        self.path, self.crate, self.crates, self.cites = path, crate, sources.codes, path.suffix == ".antt" and CITES.search(text)
        self.text = plain(rest) if path.suffix == ".rt" else "\n".join(plain_lines(rest))
        module = next((module for module in self.crates[crate].modules if module.file == path), None)
        self.imports = [Import(*leaf, crate_of(sources, module, leaf[0]) if module else crate)
                        for tree in uses.findall(text) for leaf in leaves_of(tree.replace(".", "::"))]
        # an import that the file does not name may be of a trait, whose functions code calls
        words = words_of(self.text)
        self.unnamed = {it for it in self.imports if path.suffix == ".rt" and not it.is_in(self.text, words)}

    def part(self, where, text, *needs, is_code=False):
        """A part of the file with a text, and with the imports that bear on it."""
        code = text if is_code or self.cites else " ".join(CALL.findall(text))
        words, called, paths = words_of(text), words_of(code), {}
        for head, rest in PATH.findall(text):
            paths.setdefault(head, set()).update(words_of(rest))
        names = names_in(self.crate, words, called) | {f".{name}()" for name in METHOD.findall(code)}
        # a crate may pass on what another one has
        rest = set().union(*(paths[head] for head in paths if head == "Rattle" or head in self.crates))
        names |= {name for crate in (self.crates if rest else ()) for name in names_in(crate, rest, rest & called)}
        taken = [it for it in self.imports if it.is_in(text, words) or is_code and it in self.unnamed]
        for it in taken:
            rest = words if it.is_of_all else it.words.union(*(paths.get(name, ()) for name in it.name))
            names |= names_in(it.crate, rest, rest if it.name <= called else rest & called)
        return Part(where, (text, sorted(it.text for it in taken)), names, needs)

    def definitions(self, where):
        """The definitions of a file of specs or proofs, each from the line that declares it on."""
        found = []
        for line in self.text.split("\n"):
            if found and not DEFINES.match(line):
                found[-1].append(line)
            elif line and not re.match(r"(?:pub )?mod\b", line):
                found.append([line])
        for lines in found:
            text, begin = "\n".join(lines), BEGINS.match(lines[0])
            names = [begin.group(1) if begin else ""]
            if re.match(r"(?:pub )?(?:data|module)\b", text):
                names += [marked or typed for marked, typed in INNER.findall(text)]
            yield self.part((where, names[0]), text, *(names_in(self.crate, words_of(name), ()) for name in names))


class CrateParts:
    """The parts of a crate: `own` are those that its checks read, and `stated` those that checks of the crates above it read."""

    def __init__(self, sources, name):
        self.sources, self.name, self.folder = sources, name, sources.codes[name].src.parent
        self.own, self.stated, self.functions, self.constants, self.files = [], [], [], set(), {}
        modules = sources.codes[name].modules
        self.attributes = re.findall(r"^#!\[.*", modules[0].file.read_text(), re.M)
        structs = {item.name: item for module in modules for item in module.items if item.kind == "struct"}
        self.hidden = {owner for (trait, owner), _ in sources.implementations(name)
                       if trait == "Model" and owner in structs and not re.search(r"^\s*pub ", structs[owner].body or "pub ", re.M)}
        for module in modules:
            for item in module.items:
                self.add(module, item)
        self.add_definitions()

    def file(self, path):
        if path not in self.files:
            self.files[path] = File(path, self.name, self.sources)
        return self.files[path]

    def put(self, part, is_own=True, is_stated=True):
        self.own += [part] * is_own
        self.stated += [part] * is_stated

    def home_of(self, module, name):
        """The name of a type or a trait with its crate, as a set. It is empty for one of the toolchain."""
        path = next((leaf for _, leaf, known in module.uses if known == name), (name,))
        item = module.named.get(name) or self.sources.resolved(module, path)
        is_found = item is not None and not isinstance(item, Module) and item.kind in ("struct", "enum", "trait")
        return {f"{item.module.crate}:{item.name}"} if is_found else set()

    def add(self, module, item):
        file, where, name = self.file(module.file), (self.name, module.path, item.kind, item.name), f"{self.name}:{item.name}"
        text, functions = said_of(item), [member for member in item.members if member.kind == "fn"]
        if item.kind == "fn":
            self.add_function(file, where, item, [{f"{name}()"}], item.public)
        elif item.kind == "trait":
            needs = [{name}, *({f".{member.name}()"} for member in functions)]
            head = self.add_head(file, where, item, text, needs, needs if item.public else needs[:1])
            for member in functions:
                self.add_function(file, (where, member.name), member, needs, True, head)
        elif item.kind == "impl":
            trait, owner = item.of()
            needs = self.home_of(module, owner) | self.home_of(module, trait)
            head = self.add_head(file, (where, text), item, text, [needs], [needs])
            for member in functions:
                own = needs if trait else needs | {f".{member.name}()"}
                self.add_function(file, (where, text, member.name), member, [own], bool(trait) or member.public, head)
        elif item.kind == "use":
            # the modules below a module have its imports as well
            for path, known in leaves_of(re.sub(r"^(pub(\([^)]*\))? )?use |;$", "", item.text)):
                it = Import(path, known, crate_of(self.sources, module, path))
                part = Part(where, it.text, names_in(it.crate, it.words, it.words), [names_in(self.name, it.name, ())])
                self.put(part, item.text.startswith("pub") or bool(module.modules), item.public)
        elif item.kind != "mod" and (item.kind, item.name) != ("ghost", "use"):
            whole, needs = f"{text} {plain(item.body or '')}", {name} if item.name else set()
            # what is derived goes through the fields where it is called, but for a copy
            if item.name in self.hidden and ("derive(" not in text or re.search(r"derive\([^)]*\bCopy\b", text)):
                self.put(file.part(where, text, needs), is_own=False)
                self.put(file.part(where, whole, needs), is_stated=False)
            else:
                self.put(file.part(where, whole, needs, is_code=item.kind not in ("struct", "enum", "type")))

    def add_head(self, file, where, item, text, own, stated):
        """Adds a trait or an `impl` without its functions, and returns it."""
        members = [member for member in item.members if member.kind != "fn" and (member.kind, member.name) != ("ghost", "use")]
        head = file.part(where, " ".join([text, *(plain(member.text) for member in members)]), *own)
        if item.kind == "impl" and item.of()[0] == "Model" and item.of()[1] in self.hidden:
            members = [member for member in members if member.name not in OF_FIELDS]
        self.put(head, is_stated=False)
        self.put(file.part(where, " ".join([text, *(plain(member.text) for member in members)]), *stated), is_own=False)
        return head

    def add_function(self, file, where, item, needs, is_stated, head=None):
        text, is_constant = said_of(item), "const" in item.text.split("fn ")[0].split()
        is_code = is_constant or "-> impl " in text
        self.put(file.part(where, f"{text} {plain(item.body or '')}" if is_code else text, *needs, is_code=is_code), is_stated=is_stated)
        self.constants |= {item.name} if is_constant else set()
        self.functions.append((file, item, head))

    def add_definitions(self):
        for path in sorted([*self.folder.glob("specs/**/*.antt"), *self.folder.glob("proofs/**/*.antt")]):
            inside, file, function = path.relative_to(self.folder), self.file(path), path.parent.name
            where = self.name, str(inside)
            if inside.parts[0] == "specs" or len(inside.parts) == 2:
                for part in file.definitions(where):
                    self.put(part, is_stated=inside.parts[0] == "specs" and inside.parts[1] != "Private")
            elif path.stem not in OF_FUNCTION:
                self.put(file.part(where, file.text, set()), is_stated=False)
            elif function in self.constants or function.startswith("+"):
                # a cycle of calls has a plus before its name
                self.put(file.part(where, file.text, {f"{self.name}:{function.strip('+')}()"}), is_stated=False)

    def seeds_of(self, mutant):
        """The parts that a check of a mutant reads first."""
        edit, touched = "\n".join(mutant.edit), mutant.touched()
        for file, item, head in self.functions:
            name = str(file.path.relative_to(self.folder))
            if any(name == changed and begin < item.line <= end + 1 for changed, (begin, end) in touched):
                text = " ".join([*map(plain, (*item.attributes, item.text, item.body or "")), edit])
                yield from [file.part(name, text, is_code=True), *([head] if head else [])]
        for path in sorted((self.folder / "proofs" / mutant.function.replace("::", "/")).glob("*.antt")):
            yield self.file(path).part(str(path.relative_to(self.folder)), self.file(path).text)


class Parts:
    """The parts of all crates."""

    def __init__(self, crates):
        self.crates, self.found, self.indexes = crates, {}, {}
        self.sources = Sources([crate.folder for crate in crates.values()])

    def of(self, name):
        if name not in self.found:
            self.found[name] = CrateParts(self.sources, name)
        return self.found[name]

    def index_of(self, crate):
        """The parts that checks of a crate may read, by each name that leads to them; by an empty one those that are always read."""
        if crate not in self.indexes:
            index = self.indexes[crate] = {}
            for part in [*self.of(crate.name).own, *(it for name in crate.below(self.crates) for it in self.of(name).stated)]:
                for name in {name for need in part.needs for name in need or [""]}:
                    index.setdefault(name, []).append(part)
        return self.indexes[crate]

    def read_by(self, mutant):
        """The parts that a check of a mutant reads."""
        names, index = set(), self.index_of(mutant.crate)
        rest = [*self.of(mutant.crate.name).seeds_of(mutant), *index.get("", ())]
        found = set(rest)
        while rest:
            new = rest.pop().names - names
            names |= new
            for part in {part for name in new for part in index.get(name, ())} - found:
                if any(need <= names for need in part.needs):
                    found.add(part)
                    rest.append(part)
        return found

    def sum_of(self, mutant):
        """The checksum of the parts that a check of a mutant reads."""
        return sum_of(self.of(mutant.crate.name).attributes, sorted({part.sum for part in self.read_by(mutant)}))
