"""Marks the breaks in all texts of a folder, in several processes of one machine.

  python3 many_files.py DICTIONARY FROM TO [--mark MARK] [--processes N]

Each file of the folder FROM and of its folders, whose name ends with .txt, is written to TO with the mark at each
break, under the same name. A soft hyphen is the mark where none is given. With N = 0 one process does all of it.

Each process loads the dictionary once. many_files_dask.py does the same on several machines.
"""

import argparse
import functools
import multiprocessing
import os
import pathlib
from concurrent.futures import ProcessPoolExecutor

from hyphenation import Dictionary

def hyphenate(dictionary, source, target, mark, name):
    """Marks the breaks of one file."""
    try:
        content = (source / name).read_bytes().decode()
    except UnicodeDecodeError as error:
        raise ValueError(f"{name} is not UTF-8") from error
    made = target / name
    made.parent.mkdir(parents=True, exist_ok=True)
    made.write_bytes(dictionary.text(content, mark).encode())


def main():
    parser = argparse.ArgumentParser(description=__doc__, formatter_class=argparse.RawDescriptionHelpFormatter)
    parser.add_argument("dictionary", metavar="DICTIONARY", help="a dictionary text, or a .dic")
    parser.add_argument("source", metavar="FROM", type=pathlib.Path, help="a folder of texts in UTF-8")
    parser.add_argument("target", metavar="TO", type=pathlib.Path, help="the folder of the results")
    parser.add_argument("--mark", default="\u00ad", help="the mark (a soft hyphen)")
    parser.add_argument("--processes", type=int, default=os.cpu_count(), metavar="N", help="how many (all processors)")
    given = parser.parse_args()
    # A faulty dictionary ends the program here, before any process begins.
    dictionary = Dictionary.from_path(given.dictionary)
    hyphenate_one = functools.partial(hyphenate, dictionary, given.source, given.target, given.mark)
    names = sorted(path.relative_to(given.source) for path in given.source.rglob("*.txt"))
    if given.processes == 0:
        for name in names:
            hyphenate_one(name)
    else:
        # A process that is forked from one with threads may not call the library, so new ones are started.
        started = multiprocessing.get_context("spawn")
        with ProcessPoolExecutor(given.processes, started) as pool:
            # The list waits for all, and an error in a process is one here.
            list(pool.map(hyphenate_one, names, chunksize=50))
    print(f"{len(names)} files")


if __name__ == "__main__":
    main()
