"""Marks the breaks in all texts of a folder, by the workers of a Dask cluster, on one machine or on many.

  python3 many_files_dask.py DICTIONARY FROM TO [--mark MARK] [--scheduler ADDRESS | --workers N]

It needs Dask with its scheduler: Debian's packages python3-dask and python3-distributed. Each file of the folder FROM
and of its folders, whose name ends with .txt, is written to TO with the mark at each break, under the same name. A soft
hyphen is the mark where none is given.

Without ADDRESS, N workers on this machine do it, one for each processor. With it the workers of that scheduler do. They
run anywhere, each with this package, and see the two folders at the same paths. They need no file of the dictionary:

  dask scheduler                                   on one machine (dask-scheduler, in older versions)
  dask worker tcp://HOST:8786 --nthreads 1         on each of the others (dask-worker)

Each worker gets the dictionary once, and not with each task.
"""

import argparse
import os
import pathlib

from distributed import Client, LocalCluster

from hyphenation import Dictionary

FILES_OF_A_TASK = 50


def hyphenate(names, dictionary, source, target, mark):
    """Marks the breaks of some files, and returns how many they are."""
    for name in names:
        try:
            content = (source / name).read_bytes().decode()
        except UnicodeDecodeError as error:
            raise ValueError(f"{name} is not UTF-8") from error
        made = target / name
        made.parent.mkdir(parents=True, exist_ok=True)
        made.write_bytes(dictionary.text(content, mark).encode())
    return len(names)


def main():
    parser = argparse.ArgumentParser(description=__doc__, formatter_class=argparse.RawDescriptionHelpFormatter)
    parser.add_argument("dictionary", metavar="DICTIONARY", help="a dictionary text, or a .dic")
    parser.add_argument("source", metavar="FROM", type=pathlib.Path, help="a folder of texts in UTF-8")
    parser.add_argument("target", metavar="TO", type=pathlib.Path, help="the folder of the results")
    parser.add_argument("--mark", default="\u00ad", help="the mark (a soft hyphen)")
    parser.add_argument("--scheduler", metavar="ADDRESS", help="the address of a scheduler, as tcp://HOST:8786")
    parser.add_argument("--workers", type=int, default=os.cpu_count(), metavar="N", help="how many (all processors)")
    given = parser.parse_args()
    # A faulty dictionary ends the program here, before any worker begins.
    dictionary = Dictionary.from_path(given.dictionary)
    source, target = given.source.resolve(), given.target.resolve()
    names = sorted(path.relative_to(source) for path in source.rglob("*.txt"))
    tasks = [names[at : at + FILES_OF_A_TASK] for at in range(0, len(names), FILES_OF_A_TASK)]
    where = given.scheduler or LocalCluster(n_workers=given.workers, threads_per_worker=1, dashboard_address=None)
    with Client(where) as client:
        everywhere = client.scatter(dictionary, broadcast=True)
        done = client.map(hyphenate, tasks, dictionary=everywhere, source=source, target=target, mark=given.mark, pure=False)
        print(f"{sum(client.gather(done))} files, {len(client.scheduler_info()['workers'])} workers")


if __name__ == "__main__":
    main()
