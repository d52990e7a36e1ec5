"""The library as include/sirbolta.h declares it, with the loop of each.c over its count, loaded if it has this package's interface number; and what a thread
has for its calls: a work slice, and a stack that is large enough or not."""

from __future__ import annotations

import ctypes
import os
import threading
from pathlib import Path
from typing import Any

INTERFACE = 3
WORK = 16_384  # the words of a work slice
STACK = 512 << 10  # bytes: on a smaller stack reading back, locating and a census are not called
NEEDED = 280  # KiB: what these take of it at most


class Reply(ctypes.Structure):
    number: int
    chair: int
    place: int
    count: int
    _fields_ = [("number", ctypes.c_uint32), ("chair", ctypes.c_uint32), ("place", ctypes.c_uint64), ("count", ctypes.c_uint64)]


class SearchReply(ctypes.Structure):
    number: int
    chair: int
    place: int
    count: int
    tests: int
    _fields_ = [*Reply._fields_, ("tests", ctypes.c_uint64)]


SLICE = [ctypes.c_void_p, ctypes.c_size_t]
FUNCTIONS: dict[str, tuple[type[ctypes.Structure] | None, list[Any]]] = {
    "build": (Reply, SLICE + [ctypes.c_uint16] + SLICE * 2),
    "check": (Reply, SLICE * 2),
    "read": (Reply, SLICE * 3),
    "extract": (Reply, SLICE + [ctypes.c_size_t] * 2 + SLICE * 2),
    "count": (SearchReply, SLICE + [ctypes.c_uint32] + SLICE * 2),
    "locate": (SearchReply, SLICE + [ctypes.c_uint32] + SLICE * 3),
    "live_cuts": (Reply, SLICE * 2),
    "lyndon_length": (Reply, SLICE + [ctypes.c_size_t] + SLICE),
    "lyndon_array": (Reply, SLICE * 3),
    "to_signed": (Reply, SLICE * 3),
    "to_steps": (Reply, SLICE * 2),
    "from_steps": (Reply, SLICE * 2),
    "build_profile": (Reply, SLICE + [ctypes.c_uint16] + SLICE * 2),
    "check_profile": (Reply, SLICE * 2),
    "census": (Reply, SLICE + [ctypes.c_size_t] + SLICE * 3),
    "count_each": (None, [ctypes.c_void_p] * 2 + [ctypes.c_size_t, ctypes.c_uint32] + SLICE * 2 + [ctypes.c_void_p]),
}


def found() -> Path:
    """The file that SIRBOLTA_LIBRARY names, or the one beside this module, or the one in the repository's target/lib."""
    here = Path(__file__).resolve()
    named = os.environ.get("SIRBOLTA_LIBRARY")
    repository = [root / "target" / "lib" / "libsirbolta.so" for root in here.parents[3:4]]
    for place in [Path(named)] if named else [here.with_name("libsirbolta.so"), *repository]:
        if place.is_file():
            return place.resolve()
    raise ImportError(f"SIRBOLTA_LIBRARY names no file: {named}" if named else "no libsirbolta.so: run bindings/build, or name the file in SIRBOLTA_LIBRARY")


def loaded(file: Path) -> ctypes.CDLL:
    """The library in a file, if its interface number is this package's and it has every function."""
    try:
        library = ctypes.CDLL(str(file))
    except OSError as error:
        raise ImportError(f"{file} is no library that can be loaded: {error}") from None
    interface = getattr(library, "sirbolta_interface", None)
    number: object = "none"
    if interface:
        interface.restype = ctypes.c_uint32
        number = interface()
    if number != INTERFACE:
        raise ImportError(f"the interface number of {file} is {number}, that of this package {INTERFACE}")
    for name, (reply, arguments) in FUNCTIONS.items():
        function = getattr(library, "sirbolta_" + name, None)
        if not function:
            raise ImportError(f"{file} has no function sirbolta_{name}, which this package calls")
        function.restype, function.argtypes = reply, arguments
    return library


def work() -> Any:
    """The running thread's work slice, made at its first call and lent to each."""
    try:
        return this_thread.work
    except AttributeError:
        this_thread.work = (ctypes.c_uint32 * WORK)()
        return this_thread.work


def enough_stack() -> None:
    """An error, unless the running thread's stack is large enough for a function that takes much of it."""
    if not hasattr(this_thread, "stack"):
        this_thread.stack = stack()
    if 0 < this_thread.stack < STACK:
        raise RuntimeError(f"up to {NEEDED} KiB of stack are needed, and this thread has {this_thread.stack >> 10} KiB in all: start it with more (threading.stack_size)")


def stack() -> int:
    """The bytes of the running thread's stack, or 0 where the system does not say."""
    attributes, start, size = (ctypes.c_uint64 * 8)(), ctypes.c_void_p(), ctypes.c_size_t()
    if system.pthread_getattr_np(ctypes.c_ulong(system.pthread_self()), attributes):
        return 0
    system.pthread_attr_getstack(attributes, ctypes.byref(start), ctypes.byref(size))
    system.pthread_attr_destroy(attributes)
    return size.value


system = ctypes.CDLL(None)
system.pthread_self.restype = ctypes.c_ulong
this_thread = threading.local()
library = loaded(found())
