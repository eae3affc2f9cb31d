"""Memory that is lent to the library: bytes of the caller, and bytes that the library writes.

No byte may change while the library reads it. Keeping the interpreter's lock is not enough for that: a thread that
reads a file or a socket into a bytearray writes to it without the lock, and other processes write to shared memory. So
what cannot change is lent as it is, and what can is copied first.
"""

from __future__ import annotations

import ctypes
from typing import Any, Optional, Tuple, Union, cast

from stormhlaw._checking import COUNT, is_a, kind_of

Data = Union[bytes, bytearray, memoryview]
"""What can be read."""

SMALL = 32_768
"""A view of fewer bytes is copied in less time than its address is found."""

Lent = Tuple[Union[bytes, int], int, bytes]
"""Where bytes start, how many there are, and the object that holds them, which must live as long as they are used. The
start is that object itself, or an address in it."""


class _Buffer(ctypes.Structure):
    """Py_buffer of CPython."""

    _fields_ = [
        ("start", ctypes.c_void_p),
        ("owner", ctypes.c_void_p),
        ("length", ctypes.c_ssize_t),
        ("item_size", ctypes.c_ssize_t),
        ("read_only", ctypes.c_int),
        ("dimensions", ctypes.c_int),
        ("format", ctypes.c_void_p),
        ("shape", ctypes.c_void_p),
        ("strides", ctypes.c_void_p),
        ("suboffsets", ctypes.c_void_p),
        ("internal", ctypes.c_void_p),
    ]


# By index the functions are our own: what others declare of pythonapi's attributes changes nothing here.
_get_buffer = ctypes.pythonapi["PyObject_GetBuffer"]
_get_buffer.argtypes = [ctypes.py_object, ctypes.POINTER(_Buffer), ctypes.c_int]
_get_buffer.restype = ctypes.c_int
_release_buffer = ctypes.pythonapi["PyBuffer_Release"]
_release_buffer.argtypes = [ctypes.POINTER(_Buffer)]
_release_buffer.restype = None
_new_bytes = ctypes.pythonapi["PyBytes_FromStringAndSize"]
_new_bytes.argtypes = [ctypes.c_void_p, ctypes.c_ssize_t]
_new_bytes.restype = ctypes.py_object


def unwritten(length: int) -> bytes:
    """So many bytes that hold anything, for the library to write to before anyone else sees them."""
    return cast(bytes, _new_bytes(None, length))


def lend(name: str, data: Any, too_long: Optional[bytes] = None) -> Lent:
    """The bytes of the argument of that name. `too_long` may stand for as many bytes as it has, or more, that would
    have to be copied, where only their number counts."""
    if is_a(data, bytes):
        return data, bytes.__len__(data), data
    with _view(name, data) as view:
        if view.nbytes >= SMALL and _is_still(view):
            return _address(view), view.nbytes, cast(bytes, view.obj)
        copy = _copied(name, view, too_long)
    return copy, len(copy), copy


def part_of(lent: Lent, start: int, length: int) -> bytes:
    """A copy of some of the bytes that are lent."""
    first, _, owner = lent
    if first is owner:
        return bytes.__getitem__(owner, slice(start, start + length))
    return ctypes.string_at(cast(int, first) + start, length)


def taken(name: str, data: Any, start: int, length: int) -> bytes:
    """A copy of some of the bytes of the argument of that name, and of no others where they are seen as bytes."""
    end = start + length
    if is_a(data, bytes):
        _reaches(name, bytes.__len__(data), end)
        return bytes.__getitem__(data, slice(start, end))
    with _view(name, data) as view:
        _reaches(name, view.nbytes, end)
        if view.format == "B" and view.ndim == 1:
            return view[start:end].tobytes()
        return _copied(name, view, None)[start:end]


def _reaches(name: str, size: int, end: int) -> None:
    """Checks that so many bytes go as far as that."""
    if size < end:
        raise ValueError(f"{name}: {end} bytes or more wanted, not {size}")


def _view(name: str, data: Any) -> memoryview:
    """A view of the argument of that name, where it is not bytes."""
    if type(data) is not memoryview and not is_a(data, bytearray):
        raise TypeError(f"{name}: bytes, bytearray or memoryview wanted, not {kind_of(data)}")
    try:
        return memoryview(data)
    except ValueError:
        raise ValueError(f"{name}: bytes, bytearray or memoryview wanted, not a released memoryview") from None


def _is_still(view: memoryview) -> bool:
    """Whether the view shows bytes in a row that nobody can write to."""
    return view.c_contiguous and is_a(view.obj, bytes)


def _address(view: memoryview) -> int:
    """Where the bytes of the view start. The object that holds them keeps them there."""
    buffer = _Buffer()
    _get_buffer(view, buffer, 0)
    try:
        return cast(int, buffer.start)
    finally:
        _release_buffer(buffer)


def _copied(name: str, view: memoryview, too_long: Optional[bytes]) -> bytes:
    """The bytes of the view, in the order of its items."""
    if too_long is not None and view.nbytes >= len(too_long):
        return too_long
    # A view that shows the same bytes again and again may be larger than any memory.
    if view.nbytes > COUNT.most:
        raise ValueError(f"{name}: at most {COUNT.written} bytes wanted where they are copied, not {view.nbytes}")
    return view.tobytes()
