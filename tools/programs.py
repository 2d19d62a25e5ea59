"""Where the scripts in Python find the programs."""

import os
import subprocess
import sys

ROOT = os.path.dirname(os.path.dirname(os.path.realpath(__file__)))


def program(name):
    """The path of a program: in the folder HYPHENATE_BIN, else this repository's launcher."""
    return os.path.join(os.environ.get("HYPHENATE_BIN") or os.path.join(ROOT, "bin"), name)


def built(name):
    """The file of a program that is proved, or of the tests of a crate: in the folder HYPHENATE_BIN, else in out/ of its crate.
    All users' programs are one file, and that is called by a link of the program's name."""
    is_tests = not name.startswith("hyphenate")
    if os.environ.get("HYPHENATE_BIN"):
        return program(name + "_tests" * is_tests)
    if is_tests:
        return os.path.join(ROOT, "crates", name, "out", name + "_tests")
    link = os.path.join(ROOT, ".programs", name)
    if not os.path.lexists(link):
        os.makedirs(os.path.dirname(link), exist_ok=True)
        os.symlink("../crates/hyphenate_program/out/hyphenate_program", link)
    return link


def prove(called, *names):
    """Proves and builds programs that are not current, for a script of that name. The launcher builds none."""
    if os.environ.get("HYPHENATE_BIN"):
        return
    script = 'root=$1 called=$2; shift 2; . "$root/tools/programs.sh"; prove "$@"'
    # (with -c in place of a file, bash forgets jobs that end while it does not wait for them)
    words = ["bash", "-eu", "/dev/stdin", ROOT, called, *names]
    if subprocess.run(words, input=script, text=True, check=False).returncode:
        sys.exit(1)
