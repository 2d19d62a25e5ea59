"""Runs a program in Python that uses pyphen, with this library in pyphen's place.

  python3 in_place_of_pyphen.py weasyprint page.html page.pdf         a module, as by python3 -m
  python3 in_place_of_pyphen.py report.py ARGUMENT..                  a script, here one that uses ReportLab

The dictionaries are those that hyphenation.pyphen finds: those of hyphenate-languages, and else those of Debian's packages
hyphen-*; or the ones in the folders that HYPHENATION_DICTIONARIES names. A program may take the first part of a broken word
alone, as WeasyPrint 57 does, where ReportLab takes both. Give it standard dictionaries then, since a break that changes
letters would lose some:

  hyphenate-convert standard hu - - /usr/share/hyphen/hyph_hu_HU.dic > dictionaries/hu.txt
  HYPHENATION_DICTIONARIES=dictionaries python3 in_place_of_pyphen.py weasyprint page.html page.pdf
"""

import os
import runpy
import sys

from hyphenation import pyphen

if __name__ == "__main__":
    if len(sys.argv) < 2:
        sys.exit(__doc__)
    sys.modules["pyphen"] = pyphen
    del sys.argv[0]
    if sys.argv[0].endswith(".py"):
        sys.path[0] = os.path.dirname(sys.argv[0])
        runpy.run_path(sys.argv[0], run_name="__main__")
    else:
        runpy.run_module(sys.argv[0], run_name="__main__", alter_sys=True)
