"""The verdicts on mutants: how an edit is read, put into a copy of its crate, checked, and judged by what the check says.

A record of a verdict holds while no code of this file changes (see `records.py`). Comments may change.
"""
import os
import pathlib
import re
import shutil
import subprocess
import tempfile

# A function that is not turned calls `returns`. No call can keep to the contract, so the function is proved at once.
NO_BODY = """ghost use Rattle.std.specs.Prelude.{◌<◌};

unsafe extern "C" {
    pub(crate) fn returns() -> u8
        ensures { result < result };
}
"""
# The words of a check for a proof that names what an edit took away. They say nothing of the contract.
NAMES_GONE = re.compile(r"has no field|is not in scope|has no `|was not admitted|can be named from here")
OPEN = re.compile(r"^note: (?:\./)?(src/\S+?):(\d+):\d+: (.*)$")
ERROR = re.compile(r"^(?:\./)?(src/\S+?):(\d+):\d+: error(.*)$")
ANSWER = re.compile(r"^(?:note: )?(?:\./)?proofs/(\S+?)/(?:Answers|Invariants|Proof)\.antt:\d+:\d+: error: (.*)$")


class Mutant:
    """An edit of a crate: its function, and the lines of files that it changes. `bad` says why it cannot be tried."""

    def __init__(self, crate, path):
        self.crate, self.path, self.name = crate, path, f"{crate.name}/{path.stem}"
        self.function, self.bad, self.lines, texts, file, old = "", "", {}, {}, "", None
        self.edit = [line for line in path.read_text().splitlines() if not line.startswith("#")]
        for line in path.read_text().splitlines():
            key, _, text = line.partition(": ")
            if key == "# function":
                self.function = text.strip()
            elif key == "file":
                file = text.strip()
            elif key == "old":
                old = text
            elif line.startswith("new:") and old is not None:
                self.replace(texts, file, old, line[len("new:"):].removeprefix(" "))
                old = None
        for file, (was, now) in texts.items():
            for at, (before, after) in enumerate(zip(was.split("\n"), now.split("\n"))):
                if before != after:
                    self.lines[file, at] = after
        if old is not None:
            self.bad = "an `old:` line has no `new:` line"
        self.spans = {file: functions_in(was) for file, (was, _) in texts.items()}
        if not self.function:
            self.bad = self.bad or "it names no function"
        elif not self.lines:
            self.bad = self.bad or "it changes nothing"
        elif not any(self.is_own(file, at) for file, at in self.lines):
            self.bad = self.bad or f"it changes no line of a function {self.function}"
        elif not any(may_be_named(self.function, file, texts[file][0], at) for file, at in self.lines):
            self.bad = self.bad or f"the function that it changes is not called {self.function}"

    def replace(self, texts, file, old, new):
        path = self.crate.folder / file
        if not file.startswith("src/") or not path.is_file():
            self.bad = f"{file} is no file of src/"
            return
        was, now = texts.get(file) or [path.read_text()] * 2
        if now.count(old) != 1:
            self.bad = f"an `old:` text stands in {file} {now.count(old)} times, and not once"
        texts[file] = was, now.replace(old, new)

    def touched(self):
        """The functions that it changes: for each its file and its lines."""
        return {(file, span_of(self.spans[file], at)[:2]) for file, at in self.lines}

    def has(self, file, line):
        """Whether a line of a file lies in a function that it changes."""
        return any(path == file and begin <= line <= end for path, (begin, end) in self.touched())

    def is_own(self, file, line):
        """Whether a line of a file lies in a function that it changes, and that has the name of its own."""
        if file not in self.spans or not self.has(file, line):
            return False
        return span_of(self.spans[file], line)[2] == self.function.split("::")[-1]


def functions_in(text):
    """The lines of each function of a file with its name. They go from the end of the one before it to its own, as rustfmt
    lays them out. A function of a trait may have no body; it ends with a semicolon."""
    lines, spans, begin = text.split("\n"), [], 0
    for at, line in enumerate(lines):
        head = re.match(r"(\s*)(?:pub(?:\([^)]*\))? )?(?:const |final |unsafe |extern \"C\" )*fn (\w+)", line)
        if not head or at < begin:
            continue
        end, has_body = at, False
        for end in range(at, len(lines)):
            it = lines[end]
            is_outer = it.startswith(head[1]) and not it.startswith(head[1] + " ")
            has_body = has_body or (is_outer and it.endswith("{"))
            if (is_outer and (it.endswith("}") or it.startswith(head[1] + "}"))) or (not has_body and it.endswith(";")):
                break
        spans.append((begin, end, head[2]))
        begin = end + 1
    return spans


def span_of(spans, at):
    return next((span for span in spans if span[0] <= at <= span[1]), (at, at, ""))


def may_be_named(function, file, text, at):
    """Whether a check may print this name of the function at a line of a file. Before a function's own name is that of its
    module. Where the function is of a type or a trait, the type's name is in the one before, as in `RequestDisplay::fmt` for
    that of `impl fmt::Display for Request`."""
    names = function.split("::")
    heads = [it for it in text.split("\n")[: at + 1] if re.match(r"(pub(\([^)]*\))? )?(impl|trait)\b|(\S.* )?fn ", it)]
    found = re.match(r"impl(?:<.*?>)? (?:.* for )?(.*)|(?:pub(?:\([^)]*\))? )?trait (.*)", heads[-1] if heads else "")
    if not found:
        modules = file.removeprefix("src/").removesuffix(".rt").split("/")
        return names[:-1] == [it for it in modules if it not in ("lib", "main")]
    # a check calls the type `()` Unit
    first = (re.search(r"(?<!['\w])\w+", found[1] or found[2]) or ["unit"])[0]
    return len(names) > 1 and first[0].upper() + first[1:] in names[-2]


class Verdict:
    """The words of a check on one mutant: `refused`, `failed`, or `open` where it says nothing of it yet."""

    def __init__(self, kind, text):
        self.kind, self.text = kind, text


def messages_of(said):
    """The messages of a check: for each its first line, and all of it in one line. Its further lines begin with two spaces."""
    found = []
    for line in said:
        if found and line.startswith("  "):
            found[-1][1] += f" {line.strip()}"
        else:
            found.append([line, line])
    return found


def judge(mutant, said, left=()):
    """Reads a check for one mutant of those that its copy had. It says nothing of the goals that the copy left open."""
    function = f"{mutant.crate.name}::{mutant.function}"
    line = next((it for it in said if it.startswith(f"fn {function}: ")), "")
    goals, gone = [], []
    for first, whole in messages_of(said):
        found, answer = OPEN.match(first), ANSWER.match(whole)
        if found and mutant.is_own(found[1], int(found[2]) - 1) and "not proved" in first:
            goals += re.findall(r"\(`([^`]+)`\)", first) or [found[3]]
        elif answer and answer[1].replace("/", "::").replace("::+", "::") == mutant.function:
            (gone if NAMES_GONE.search(answer[2]) else goals).append(f"answer {answer[2].split(':')[0].strip('`')}")
    goals += re.findall(r"`([\w+-]+)`", line.partition("did not prove ")[2].partition("; it calls")[0])
    # a goal whose answer names what is gone is open for that alone
    goals = [it for it in goals if it not in gone and f"answer {it}" not in gone and it.removeprefix("answer ") not in left]
    if line.endswith(": proved"):
        return Verdict("failed", "NOT REFUSED: its function is proved with it")
    if goals:
        return Verdict("refused", " ".join(dict.fromkeys(goals)))
    if gone:
        return Verdict("failed", f"NOT REFUSED for its meaning: only proofs that name what it took away: {' '.join(gone)}")
    if " it calls " in line or ", which is not proved" in line:
        return Verdict("failed", f"NOT REFUSED for its meaning: {line.partition(': ')[2]}")
    if left and line:
        return Verdict("failed", f"NOT REFUSED at the goal of its record that was tried: {line.partition(': ')[2]}")
    return Verdict("open", line.partition(": ")[2] or "the check says nothing of its function")


def left_of(goals):
    """The goals that a check can leave open, of those at which a mutant was refused, since one is enough: all but an answer by
    hand, which fails at once, or but the first. The search for a proof of an open goal goes on up to its limits."""
    words = goals.split()
    answers = [word for before, word in zip(words, words[1:]) if before == "answer"]
    searched = [word for word in words if word != "answer" and word not in answers]
    return searched if answers else searched[1:]


def is_constant(lines, span):
    """Whether a function can be called where constants are made. It can call no function of C."""
    return any(re.search(rf"\bconst\b.*\bfn {span[2]}\b", line) for line in lines[span[0]:span[1] + 1])


def without_body(lines, span):
    """The lines of a function, as many as there were, of which nothing is left in its body, so that it is proved at once. A
    function of a trait may have no body; one that returns an `impl` has its type by its body, which stays."""
    begin, end, name = span
    head = next(at for at in range(begin, end + 1) if re.search(rf"\bfn {name}\b", lines[at]))
    outer = re.match(r"\s*", lines[head])[0]
    opens = [at for at in range(head, end) if lines[at].endswith("{") and re.match(rf"{outer}\S", lines[at])]
    if not opens or lines[end] != outer + "}" or "-> impl " in "".join(lines[head:opens[0] + 1]):
        return lines[begin:end + 1]
    body = " unsafe { crate::no_body::returns() }; unreachable!()"
    return lines[begin:opens[0]] + [lines[opens[0]] + body] + [""] * (end - opens[0] - 1) + [lines[end]]


class Copy:
    """A crate with several mutants in it, to be read by one check.

    A function is proved against the contracts of those that it calls. So the others are not proved again: nothing is left of
    their bodies, and their proofs are not there."""

    def __init__(self, crate, known):
        self.crate, self.mutants, self.taken = crate, [], set()
        self.left = {mutant: left_of(goals) for mutant, goals in known.items()}

    def takes(self, mutant):
        """Adds the mutant, unless one of its functions is turned already."""
        touched = mutant.touched() | {mutant.function}
        if self.taken & touched:
            return False
        self.taken |= touched
        self.mutants.append(mutant)
        return True

    def write(self, room):
        for part in ("src", "specs", "proofs"):
            if (self.crate.folder / part).is_dir():
                shutil.copytree(self.crate.folder / part, room / part)
        turned, whole = {mutant.function for mutant in self.mutants}, set()
        for path in sorted((room / "src").rglob("*.rt")):
            file, lines = str(path.relative_to(room)), path.read_text().split("\n")
            for span in functions_in("\n".join(lines)):
                if is_constant(lines, span):
                    whole.add(span[2])
                elif (file, span[:2]) not in self.taken:
                    lines[span[0]:span[1] + 1] = without_body(lines, span)
            for mutant in self.mutants:
                for (changed, at), text in mutant.lines.items():
                    if changed == file:
                        lines[at] = text
            path.write_text("\n".join(lines))
        (room / "src/no_body.rt").write_text(NO_BODY)
        (room / self.crate.top).write_text((room / self.crate.top).read_text() + "\nmod no_body;\n")
        for kind in ("Answers", "Invariants", "Proof"):
            for path in sorted((room / "proofs").rglob(f"{kind}.antt")):
                # a plus is before the name of a cycle of calls
                name = "::".join(part.lstrip("+") for part in path.parent.relative_to(room / "proofs").parts)
                if name not in turned and path.parent.name not in whole:
                    path.unlink()
        for mutant in self.mutants:
            self.leave(mutant, room / "proofs")

    def leave(self, mutant, proofs):
        """Writes a hole as the answer to each goal that is left open."""
        goals = self.left.get(mutant)
        if goals:
            *modules, name = mutant.function.split("::")
            folder = proofs.joinpath(*modules, f"+{name}")
            folder = folder if folder.is_dir() else proofs.joinpath(*modules, name)
            folder.mkdir(parents=True, exist_ok=True)
            answers = folder / "Answers.antt"
            module = f"Rattle.{self.crate.name}.proofs.{'.'.join(folder.relative_to(proofs).parts)}.Goals"
            text = answers.read_text() if answers.exists() else ""
            head = "" if f"use {module} as goal" in text else f"use {module} as goal\n"
            answers.write_text(head + text + "".join(f"\npub {goal} : goal.{goal}\n{goal} = ?\n" for goal in goals))


def linked(folder, to):
    """Copies kept work. Files of proved modules are linked, since a check replaces such a file and changes none."""
    def copy(one, other):
        try:
            return os.link(one, other) if one.endswith(".oantt") else shutil.copy2(one, other)
        except OSError:
            return shutil.copy2(one, other)
    shutil.copytree(folder, to, symlinks=True, copy_function=copy)


class Trial:
    """The trial of a crate's mutants, in as few checks as it takes. `known` has the goals at which some were refused before."""

    def __init__(self, crate, mutants, crates, kit, known):
        self.crate, self.mutants, self.crates, self.kit, self.known = crate, mutants, crates, kit, known
        self.verdicts, self.checks = {}, 0

    def run(self):
        """Tries the mutants, and returns the verdict on each."""
        rest = []
        for mutant in self.mutants:
            if mutant.bad:
                self.verdicts[mutant] = Verdict("failed", f"BAD: {mutant.bad}")
            else:
                rest.append(mutant)
        if rest:
            self.try_rest(rest)
        return self.verdicts

    def try_rest(self, rest):
        with tempfile.TemporaryDirectory(prefix="mutants-") as room:
            self.kept = pathlib.Path(room) / "kept"
            kept = self.crate.folder / "out/incremental"
            if kept.is_dir():
                linked(kept, self.kept)
            else:
                self.kept.mkdir()
            self.try_all(rest)

    def try_all(self, rest):
        copies = []
        for mutant in rest:
            if not any(copy.takes(mutant) for copy in copies):
                copies.append(Copy(self.crate, self.known))
                copies[-1].takes(mutant)
        for copy in copies:
            self.try_copy(copy)

    def try_copy(self, copy):
        """Tries the mutants of a copy; those that stay undecided are tried in two halves, or else have failed."""
        said = self.check(copy)
        is_read = any(re.match(r"only=\d+ proved=\d+", line) for line in said)
        undecided = []
        for mutant in copy.mutants:
            verdict = judge(mutant, said, copy.left.get(mutant, ())) if is_read else Verdict("open", self.unread(said))
            alone = len(copy.mutants) == 1
            if verdict.kind == "refused" or alone:
                if verdict.kind == "refused" and mutant in self.known:
                    verdict = Verdict("refused", self.known[mutant])
                elif verdict.kind == "open":
                    verdict = Verdict("failed", f"BAD: {verdict.text}")
                self.verdicts[mutant] = verdict
            else:
                undecided.append(mutant)
        if not is_read:
            # a mutant at whose function the reader stopped is tried alone
            stopped = [mutant for mutant in undecided if self.stops_at(mutant, said)]
            rest = [mutant for mutant in undecided if mutant not in stopped]
            for mutant in stopped if rest else ():
                self.try_all([mutant])
            if stopped and rest:
                undecided = []
                self.try_all(rest)
        if len(undecided) < len(copy.mutants):
            self.try_all(undecided)
        else:
            middle = (len(undecided) + 1) // 2
            self.try_all(undecided[:middle])
            self.try_all(undecided[middle:])

    def stops_at(self, mutant, said):
        places = [found for found in map(ERROR.match, said) if found]
        is_unknown = any(f"has no function `{mutant.function}`" in line for line in said)
        return is_unknown or any(mutant.has(found[1], int(found[2]) - 1) for found in places)

    def unread(self, said):
        first = next((it for it in said if re.search(r"\berror\b", it)), said[-1] if said else "nothing was said")
        return f"the check could not read it: {first[:200]}"

    def check(self, copy):
        self.checks += 1
        with tempfile.TemporaryDirectory(prefix="mutants-") as folder:
            room = pathlib.Path(folder)
            copy.write(room)
            words = [str(self.kit / "bin/rattle"), "check", *self.crate.words(self.crates, self.kit), "--jobs", "1"]
            # the copy declares a function of C, which a check has to be told
            words[words.index("--links") + 1] += "no_body"
            words += ["--incremental", str(self.kept)]
            for name in sorted({mutant.function for mutant in copy.mutants}):
                words += ["--only", name]
            ran = subprocess.run(words, cwd=room, stdin=subprocess.DEVNULL, stdout=subprocess.PIPE, stderr=subprocess.STDOUT,
                                 text=True, errors="replace")
            if logs := os.environ.get("MUTANTS_LOGS"):
                (pathlib.Path(logs) / f"{self.crate.name}-{self.checks}.log").write_text(ran.stdout)
            return ran.stdout.splitlines()
