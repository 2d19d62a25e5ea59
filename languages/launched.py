"""The programs of this repository, for the scripts of this folder."""

import os
import sys

sys.path.insert(0, os.path.join(os.path.dirname(os.path.dirname(os.path.realpath(__file__))), "tools"))
from programs import ROOT, program, prove  # noqa: E402, F401
