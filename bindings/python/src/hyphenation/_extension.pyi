from typing import Any, Callable

from ._by_ctypes import (
    Handle as Handle, cause_message as cause_message, exception_paths as exception_paths, kind_of as kind_of, paths as paths,
)

def start(path: str, fail: Callable[[int], Any]) -> None: ...
