"""Runs of programs, counted by valgrind, and tables: for the scripts of bench/."""

import os
import platform
import re
import subprocess
import sys

ROOT = os.path.dirname(os.path.dirname(os.path.realpath(__file__)))
sys.path.insert(0, os.path.join(ROOT, "tools"))
from programs import built  # noqa: E402, F401

BIN = os.environ.get("HYPHENATE_BIN")
# The test that does a task, up to the task, the kind and the path of its dictionary, and the path of its words.
WORK = [built("tests_libraries"), "measuring::tasks_count_words_places_and_breaks"]
COUNTED = ["valgrind", "--tool=callgrind", "--callgrind-out-file=/dev/null"]
# Valgrind simulates a predictor of branches too.
PREDICTED = [*COUNTED, "--branch-sim=yes"]


def left_out(what, why):
    print(f"left out: {what}: {why}", flush=True)


def processor():
    """The name of the processor."""
    with open("/proc/cpuinfo", encoding="utf-8") as lines:
        models = [line.split(":", 1)[1].strip() for line in lines if line.startswith("model name")]
    return models[0] if models else platform.machine()


def ran(command, **how):
    """The output of a command, or an error with what it said."""
    done = subprocess.run(command, capture_output=True, encoding="utf-8", check=False, **how)
    if done.returncode:
        raise OSError(f"{' '.join(command)} ended with {done.returncode}: {done.stderr.strip()[-500:]}")
    return done


def collected(said):
    """The instructions that valgrind reports."""
    return int(re.search(r"Collected : (\d+)", said).group(1))


def predicted(said):
    """The instructions, the mispredicted branches and the mispredicted indirect jumps of a run with PREDICTED."""
    found = re.search(r"Events    : Ir Bc Bcm Bi Bim\n.*Collected : (\d+) \d+ (\d+) \d+ (\d+)", said)
    return [int(number) for number in found.groups()]


def counted(command, given=os.devnull):
    """The instructions of a run with status 0 on a file, and its output."""
    with open(given, "rb") as file:
        done = subprocess.run([*COUNTED, *command], stdin=file, capture_output=True, check=False)
    said = done.stderr.decode(errors="replace")
    if done.returncode or "Collected : " not in said:
        raise OSError(f"{' '.join(command)} ended with {done.returncode}:\n{said}")
    return collected(said), done.stdout


def markdown(heads, rows):
    """A table of Markdown."""
    lines = [heads, *rows]
    text = ["| " + " | ".join(line) + " |\n" for line in lines]
    text.insert(1, "|---" + "|---:" * (len(heads) - 1) + "|\n")
    return "".join(text)
