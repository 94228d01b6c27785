"""The shared library libgolvanzo.so, through ctypes: its structs and calls, as c/plan.h has them."""

from __future__ import annotations

import contextlib
import ctypes
import os
import pathlib
from typing import Iterator, Tuple

COUNTS = TABLES = 7
LISTS = ("input", "latch", "output", "bad", "constraint")
NO_MEMORY = 2**64 - 1
MAJOR = 1

_words = ctypes.POINTER(ctypes.c_uint32)
_address = ctypes.c_void_p


class End(ctypes.Structure):
    """How a call ended: 0, or a refusal's number and its place."""

    _fields_ = [("number", ctypes.c_uint64), ("place", ctypes.c_uint64)]


class PlanStruct(ctypes.Structure):
    """struct plan."""

    _fields_ = [
        ("counts", ctypes.c_uint64 * COUNTS),
        ("table", _words * TABLES),
        ("words", ctypes.c_size_t * TABLES),
        ("scratch", _words),
        ("scratch_words", ctypes.c_size_t),
        ("tail", _address),
        ("tail_length", ctypes.c_size_t),
        ("binary", ctypes.c_int),
    ]


class Bytes(ctypes.Structure):
    """struct plan_bytes."""

    _fields_ = [("at", _address), ("length", ctypes.c_size_t)]


class Finding(ctypes.Structure):
    """struct plan_finding."""

    _fields_ = [("says", ctypes.c_int), ("tried", ctypes.c_uint64)]


class Symbol(ctypes.Structure):
    """struct plan_symbol."""

    _fields_ = [("list", ctypes.c_int), ("entry", ctypes.c_uint64), ("name", _address), ("length", ctypes.c_size_t)]


_plan = ctypes.POINTER(PlanStruct)
_size = ctypes.c_size_t
_number = ctypes.c_uint64

# The arguments of each call that ends with a struct plan_end.
_CALLS = {
    "plan_read": [_plan, _address, _size],
    "plan_read_cards": [_plan, _address, _size],
    "plan_check": [_plan],
    "plan_convert": [_plan],
    "plan_reduce": [_plan],
    "plan_drop": [_plan],
    "plan_write_text": [_plan, ctypes.POINTER(Bytes)],
    "plan_write_binary": [_plan, ctypes.POINTER(Bytes)],
    "plan_write_cards": [_plan, ctypes.POINTER(Bytes)],
    "plan_step": [_plan, _address, _address, _address],
    "plan_run": [_plan, _number, _address, _address, _address],
    "plan_explain": [_plan, _address, _address, _number, _address],
    "plan_values": [_plan, _address, _address, _address],
    "plan_rewire": [_plan, _number, ctypes.c_uint32, ctypes.c_uint32, _address],
    "plan_witness": [_plan, _number, _address, _size, _number, ctypes.POINTER(Finding)],
    "plan_witness3": [_plan, _number, _address, _size, ctypes.POINTER(ctypes.c_int)],
    "plan_report": [_plan, _number, _address, _size, _address],
    "plan_rows": [_plan, _number, _address, _address, _address],
    "plan_report_rows": [_plan, _number, _address, _address],
}


def _candidates() -> Iterator[str]:
    """Where the library may be: as the environment says, in the prefix of this package, as the system knows it."""
    said = os.environ.get("GOLVANZO_LIBRARY")
    if said:
        yield said
        return
    name = "libgolvanzo.so.%d" % MAJOR
    for parent in pathlib.Path(__file__).resolve().parents:
        if parent.name == "lib" and (parent / name).is_file():
            yield str(parent / name)
    yield name


def _load() -> ctypes.CDLL:
    why = []
    for name in _candidates():
        try:
            return ctypes.CDLL(name)
        except OSError as error:
            why.append(str(error))
    raise ImportError("golvanzo: the shared library is not found; GOLVANZO_LIBRARY may name it (%s)" % "; ".join(why))


def _declare(library: ctypes.CDLL) -> ctypes.CDLL:
    for name, arguments in _CALLS.items():
        call = getattr(library, name)
        call.argtypes, call.restype = arguments, End
    for name in ("plan_sentence", "plan_place", "plan_advice"):
        call = getattr(library, name)
        call.argtypes, call.restype = [_number], ctypes.c_char_p
    library.golvanzo_version.argtypes, library.golvanzo_version.restype = [], ctypes.c_char_p
    library.plan_free.argtypes, library.plan_free.restype = [_plan], None
    library.plan_free_bytes.argtypes, library.plan_free_bytes.restype = [ctypes.POINTER(Bytes)], None
    library.plan_first.argtypes, library.plan_first.restype = [_plan, _address], None
    library.plan_next_symbol.argtypes = [_plan, ctypes.POINTER(_size), ctypes.POINTER(Symbol)]
    library.plan_next_symbol.restype = ctypes.c_int
    return library


library = _declare(_load())
version: str = library.golvanzo_version().decode("ascii")
if int(version.split(".")[0]) != MAJOR:
    raise ImportError("golvanzo: the library's version is %s, and this package is for %d" % (version, MAJOR))


class _Buffer(ctypes.Structure):
    """Py_buffer, of which the address and the length are read."""

    _fields_ = [
        ("buf", _address),
        ("obj", ctypes.py_object),
        ("len", ctypes.c_ssize_t),
        ("itemsize", ctypes.c_ssize_t),
        ("readonly", ctypes.c_int),
        ("ndim", ctypes.c_int),
        ("format", ctypes.c_char_p),
        ("shape", _address),
        ("strides", _address),
        ("suboffsets", _address),
        ("internal", _address),
    ]


_get_buffer = ctypes.pythonapi.PyObject_GetBuffer
_get_buffer.argtypes, _get_buffer.restype = [ctypes.py_object, ctypes.POINTER(_Buffer), ctypes.c_int], ctypes.c_int
_release_buffer = ctypes.pythonapi.PyBuffer_Release
_release_buffer.argtypes, _release_buffer.restype = [ctypes.POINTER(_Buffer)], None


@contextlib.contextmanager
def lent(owner: object, writable: bool = False) -> Iterator[Tuple[int, int]]:
    """The address and the length of any object's bytes, by the buffer protocol: nothing is copied."""
    view = _Buffer()
    _get_buffer(owner, ctypes.byref(view), 1 if writable else 0)
    try:
        yield view.buf or 0, view.len
    finally:
        _release_buffer(ctypes.byref(view))
