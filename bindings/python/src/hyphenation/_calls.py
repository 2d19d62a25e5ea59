"""The calls of the library: by the extension where it was built, and else by ctypes.

HYPHENATION_CALLS=ctypes takes ctypes in any case, and HYPHENATION_CALLS=extension takes nothing else than the extension.
"""

import os
import sys
from typing import TYPE_CHECKING

# Where threads run at once, nothing would keep a handle from two calls at a time.
if not getattr(sys, "_is_gil_enabled", lambda: True)():
    raise ImportError("hyphenation needs the lock of the interpreter, which this Python does not have")

_WANTED = os.environ.get("HYPHENATION_CALLS", "")
if _WANTED not in ("", "ctypes", "extension"):
    raise ImportError("HYPHENATION_CALLS is neither ctypes nor extension: {}".format(_WANTED))
#: Which of the two it is.
NAME = _WANTED or "extension"

if TYPE_CHECKING:
    from ._by_ctypes import Handle, cause_message, exception_paths, kind_of, paths
elif NAME == "ctypes":
    from ._by_ctypes import Handle, cause_message, exception_paths, kind_of, paths
else:
    try:
        from . import _extension, _results
    except ImportError:
        if _WANTED:
            raise
        NAME = "ctypes"
        from ._by_ctypes import Handle, cause_message, exception_paths, kind_of, paths
    else:
        _extension.start(_results.library_path(), _results.fail)
        from ._extension import Handle, cause_message, exception_paths, kind_of, paths

__all__ = ("NAME", "Handle", "cause_message", "exception_paths", "kind_of", "paths")
