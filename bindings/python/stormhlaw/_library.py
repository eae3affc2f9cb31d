"""The C functions of include/stormhlaw.h. Nothing is checked here: whoever calls has done so."""

from __future__ import annotations

import ctypes
import os
from pathlib import Path
from typing import Any, List

LONGEST = 1_048_576
"""The most bytes an input may have."""

STRICT_FLAG = 1
"""The flag of a strict reading, in the sum that tells how a report is read."""

REPLY_FLAG = 2
"""The flag of a reading as a storage-quality reply, in the same sum."""

SEGMENT_NUMBERS, LEVEL_NUMBERS = 4, 4
"""How many numbers a segment's record has in its table, and a level's."""

NAME = "libstormhlaw.so"
"""The shared library's file."""

Answer = ctypes.c_uint64 * 4
"""The four numbers of an answer."""

Span = ctypes.c_uint64 * 2
"""Where a part starts, and how many bytes it has."""

Quantity = ctypes.c_int64 * 5
"""The five numbers of a quantity: whether the text is one, value, places, exponent, whether an exponent is written."""

Walked = ctypes.c_uint64 * 2
"""The two numbers of a walk's answer: 0 and how many levels are listed, or the refusal and the level."""

_BYTE, _SIZE, _NUMBER = ctypes.c_uint8, ctypes.c_size_t, ctypes.c_uint64
# A pointer is given as a bytes object, an array of ctypes, or an address.
_POINTER = ctypes.c_void_p
_LENT: List[Any] = [_POINTER, _SIZE]


def _path() -> str:
    """Where the shared library is: where STORMHLAW_LIBRARY says, else beside this file, or, in the repository, where
    bindings/library writes it."""
    named = os.environ.get("STORMHLAW_LIBRARY")
    if named:
        if not os.path.exists(named):
            raise ImportError(f"there is no {named}, which STORMHLAW_LIBRARY names")
        # A name without a folder would be looked for among the system's libraries.
        return os.path.abspath(named)
    here = Path(__file__).resolve().parent
    in_repository = (here.parent / "pyproject.toml").exists()
    path = (here.parents[2] / "target" / "lib" if in_repository else here) / NAME
    if not path.exists():
        raise ImportError(f"there is no {path}{': run bindings/library first' if in_repository else ''}")
    return str(path)


def _load(path: str) -> ctypes.CDLL:
    """The library with its functions declared. A call lets other threads run."""
    library = ctypes.CDLL(path)
    three = 3 * [_BYTE]
    library.stormhlaw_read.argtypes = [*_LENT, *three, _NUMBER, *_LENT, *_LENT, _POINTER]
    library.stormhlaw_rewrite.argtypes = [*_LENT, *three, _NUMBER, *three, *_LENT, *_LENT, *_LENT, _POINTER]
    library.stormhlaw_lookup.argtypes = [*_LENT, _BYTE, _BYTE, _NUMBER, _NUMBER, _POINTER]
    library.stormhlaw_number.argtypes = [*_LENT, _POINTER]
    library.stormhlaw_walk.argtypes = [*_LENT, _NUMBER, *_LENT, _POINTER]
    for function in ("read", "rewrite", "lookup", "number", "walk"):
        getattr(library, f"stormhlaw_{function}").restype = None
    return library


def _found() -> ctypes.CDLL:
    path = _path()
    try:
        return _load(path)
    except (OSError, AttributeError) as error:
        raise ImportError(f"{path} cannot be used: {error}") from error


library = _found()
