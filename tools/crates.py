"""The crates for scripts: the lines of crates.txt, and how the toolchain checks one crate over built libraries."""
import functools
import hashlib
import importlib.machinery
import importlib.util
import os
import pathlib
import re
import subprocess
import sys

ROOT = pathlib.Path(__file__).resolve().parent.parent


class Crate:
    """A crate of a repository: its folder, and the libraries that its line of crates.txt names."""

    def __init__(self, root, line):
        left, right = line.split(":")
        words = left.split()
        self.root, self.name, self.uses, self.is_static = root, words[0], right.split(), "staticlib" in words
        self.folder = root / "crates" / self.name
        self.top = "src/lib.rt" if (self.folder / "src/lib.rt").exists() else "src/main.rt"

    def library(self):
        """The crate as the crates above it read it, where `tools/rt-ci`, `tools/prove` or `rt lib` left it."""
        return self.folder / "out/rlib" / f"{self.name}.rlib"

    def has_tests(self):
        """Whether it has tests. Then no crate uses it, and what is built is the program of its tests."""
        return any("#[test]" in path.read_text() for path in (self.folder / "src").rglob("*.rt"))

    def is_library(self):
        """Whether crates above it may use it; else it is a program, a static library, or tests."""
        return self.top.endswith("lib.rt") and not self.is_static and not self.has_tests()

    def is_made_of(self, stamp):
        """Whether there is its library, made of the sources with this stamp."""
        return self.library().is_dir() and self.stamp().is_file() and self.stamp().read_text() == stamp

    def size(self):
        """How many bytes its sources have."""
        return sum(path.stat().st_size for part in ("src", "specs", "proofs") for path in (self.folder / part).rglob("*.*t"))

    def stamp(self):
        """The file with the stamp of the library."""
        return self.folder / "out/rlib/stamp"

    def below(self, crates):
        """The names of the crates of the repository that it uses, with those below."""
        found, rest = [], list(self.uses)
        while rest:
            name = rest.pop()
            if name in crates and name not in found:
                found.append(name)
                rest += crates[name].uses
        return found

    def words(self, crates, kit):
        """The arguments by which `rattle check` and `rattle build` find what the crate uses."""
        words = ["--crate-name", self.name, self.top]
        for name in ["std", *self.uses]:
            library = crates[name].library() if name in crates else kit / "rlibs" / f"{name}.rlib"
            words += ["--extern", f"{name}={library}"]
        for name in self.below(crates):
            words += ["-L", f"dependency={crates[name].library().parent}"]
        words += ["-L", f"dependency={kit / 'rlibs'}", "--links", f"{self.name}="]
        words += ["--antt-project", str(kit / "rattle/logic/antt-project.json"), "--logic-built", str(kit / "logic_built")]
        return words + (["--crate-type", "staticlib"] if self.is_static else [])


def crates_of(root=ROOT):
    """The crates of crates.txt, by their names."""
    lines = [line.split("#")[0].strip() for line in (root / "crates.txt").read_text().splitlines()]
    crates = [Crate(root, line) for line in lines if ":" in line]
    return {crate.name: crate for crate in crates}


def layers_of(root=ROOT):
    """The layers of crates.txt, from the lowest one on: the text of each heading, as `# 2. A dictionary`, and the names of the
    crates below it. Crates above the first heading have an empty one."""
    layers = [("", [])]
    for line in (root / "crates.txt").read_text().splitlines():
        heading = re.fullmatch(r"# (\d+\. .*)", line)
        if heading:
            layers.append((heading.group(1), []))
        elif ":" in line.split("#")[0]:
            layers[-1][1].append(line.split(":")[0].split()[0])
    return layers if layers[0][1] else layers[1:]


def stop(text):
    """Ends a script that can't be run, with the status 2."""
    print(text, file=sys.stderr)
    sys.exit(2)


def kit_folder():
    """The folder of the toolchain."""
    try:
        page = subprocess.run(["rt", "doc"], capture_output=True, text=True, check=True).stdout.strip()
    except (OSError, subprocess.CalledProcessError):
        stop(f"{sys.argv[0]}: the toolchain is missing: there is no command rt")
    return pathlib.Path(page).parent


def in_order(crates, names):
    """The crates of these names and all that they use, each after those that it uses."""
    order = []

    def visit(name):
        for it in crates[name].uses:
            if it in crates and it not in order:
                visit(it)
        if name not in order:
            order.append(name)

    for name in names:
        visit(name)
    return [crates[name] for name in order]


def need_libraries(crates, above):
    """Ends the script unless the libraries below these crates are there. Without AS_BUILT, as ./test sets it, those that are
    missing or older than their sources are proved first."""
    below = [crate for crate in in_order(crates, [crate.name for crate in above]) if crate not in above or
             any(crate.name in other.below(crates) for other in above)]
    if os.environ.get("AS_BUILT"):
        for crate in below:
            if not crate.library().is_dir():
                stop(f"{sys.argv[0]}: there is no library {crate.name}: `tools/prove {crate.name}` makes it")
    elif below and subprocess.run([ROOT / "tools/prove", *(crate.name for crate in below)]).returncode:
        stop(f"{sys.argv[0]}: not all libraries are proved")


def stamps_of(crates, kit):
    """The stamps of the crates. A library lies beside the stamp of the sources that it was made of, its own and those below, so
    one with another stamp is out of date. The stamps are those of `rt`, so that `rt check` takes the same libraries. Where its
    module is not as it was known, they are others, and `rt check` makes libraries of its own."""
    root = next(iter(crates.values())).root
    try:
        sys.dont_write_bytecode = True
        loader = importlib.machinery.SourceFileLoader("rtlib", str(kit / "bin/rtlib.py"))
        rtlib = importlib.util.module_from_spec(importlib.util.spec_from_loader("rtlib", loader))
        loader.exec_module(rtlib)
        # it asks for the stamps of the crates below, and these for those below them, again and again
        rtlib.Crate.stamp = functools.lru_cache(None)(rtlib.Crate.stamp)
        return {crate.name: crate.stamp() for crate in rtlib.crates_below(str(root))}
    except (OSError, AttributeError, TypeError, SystemExit):
        found = {}
        for crate in in_order(crates, crates):
            read = [str(kit), crate.name, *crate.uses, *(found[name] for name in crate.uses if name in crates)]
            for part in ("src", "specs", "proofs"):
                for path in sorted(it for it in (crate.folder / part).rglob("*") if it.is_file()):
                    read += [str(path.relative_to(crate.folder)), path.read_bytes()]
            found[crate.name] = hashlib.sha256(repr(read).encode()).hexdigest()
        return found


def commit_of(root=ROOT):
    """The name of the commit that is checked out; where there is none, one text for all."""
    ran = subprocess.run(["git", "rev-parse", "HEAD"], cwd=root, capture_output=True, text=True)
    return ran.stdout.strip() or "no commit"


def lanes(gigabytes, jobs=0):
    """How many checks run at once: one for each processor, if each finds that much free memory."""
    free = 0
    for line in pathlib.Path("/proc/meminfo").read_text().splitlines():
        if line.startswith("MemAvailable:"):
            free = int(line.split()[1]) // (gigabytes * 1_000_000)
    return jobs or max(1, min(len(os.sched_getaffinity(0)), free))
