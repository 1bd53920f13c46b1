"""The shared library, found and loaded, and its calls as include/polytwkb.h declares them."""
from __future__ import annotations

import ctypes
import os
from typing import Any, Callable, List, Tuple, TypeVar

from ._memory import Memory, memory_of
from ._reasons import Status

VERSION = "0.1.0"

TEXT_ROOM = 32
# A flag of polytwkb_read and polytwkb_write: the call ends at the first geometry without room.
STOP_IF_FULL = 1

_Buffer = TypeVar("_Buffer")


class CLimits(ctypes.Structure):
    _fields_ = [(name, ctypes.c_uint32) for name in ("nest", "nodes", "points")]


def _numbers(*names: str) -> List[Tuple[str, Any]]:
    """The fields of a result: two numbers of 32 bits, these of 64, and two that are reserved."""
    words: List[Tuple[str, Any]] = [("status", ctypes.c_uint32), ("reason", ctypes.c_uint32)]
    return [*words, *((name, ctypes.c_uint64) for name in names), ("reserved", 2 * ctypes.c_uint64)]


class Report(ctypes.Structure):
    _fields_ = _numbers("place", "text_offset", "done", "sent", "needed", "taken", "taken_points")


class Counts(ctypes.Structure):
    _fields_ = _numbers("place", "done", "rows", "points", "needed_rows", "needed_points", "taken")


def _path() -> str:
    """The file that POLYTWKB_LIBRARY names, else the one beside this module, else the one that the system finds."""
    named = os.environ.get("POLYTWKB_LIBRARY")
    if named:
        return os.path.abspath(named)
    beside = os.path.join(os.path.dirname(os.path.abspath(__file__)), "libpolytwkb.so")
    return beside if os.path.exists(beside) else f"libpolytwkb.so.{VERSION.split('.')[0]}"


def _text(call: Callable[..., Any], *reason: int) -> str:
    text = ctypes.create_string_buffer(TEXT_ROOM)
    call(*reason, text, TEXT_ROOM)
    return text.value.decode("ascii")


def _loaded(path: str) -> Any:
    """The library in a file, which has to be of the version of this package."""
    library = ctypes.CDLL(path)
    version = library.polytwkb_version
    room = [ctypes.c_char_p, ctypes.c_size_t]
    version.argtypes, version.restype = room, ctypes.c_size_t
    found = _text(version)
    if found != VERSION:
        raise ImportError(f"polytwkb {VERSION} needs the library {VERSION}, and {path} is {found}")
    library.polytwkb_reason_text.argtypes, library.polytwkb_reason_text.restype = [
        ctypes.c_uint32,
        *room,
    ], ctypes.c_size_t
    buffers = [ctypes.c_char_p, ctypes.c_size_t, ctypes.c_void_p, ctypes.c_size_t]
    for call in (library.polytwkb_encode, library.polytwkb_decode):
        call.argtypes, call.restype = buffers, Report
    library.polytwkb_convert.argtypes = [ctypes.c_uint32, *buffers, ctypes.c_void_p, ctypes.c_size_t]
    library.polytwkb_convert.restype = Report
    column = library.polytwkb_convert_column
    column.argtypes = [ctypes.c_uint32, *buffers, *buffers[:2], ctypes.c_void_p, ctypes.c_size_t]
    column.restype = Report
    library.polytwkb_encode.argtypes = [ctypes.c_void_p, *buffers[1:]]
    library.polytwkb_round.argtypes, library.polytwkb_round.restype = [
        ctypes.c_void_p,
        ctypes.c_size_t,
        ctypes.c_int32,
        *buffers[2:],
    ], Report
    measure = library.polytwkb_measure
    measure.argtypes, measure.restype = [
        ctypes.c_uint32,
        ctypes.c_void_p,
        ctypes.c_size_t,
        CLimits,
        ctypes.c_uint32,
    ], Report
    memory = [ctypes.c_void_p, ctypes.c_size_t]
    library.polytwkb_read.argtypes, library.polytwkb_read.restype = [*memory * 4, CLimits, ctypes.c_uint32], Counts
    library.polytwkb_write.argtypes = [*memory * 4, CLimits, ctypes.c_uint32, ctypes.c_uint32]
    library.polytwkb_write.restype = Report
    return library


try:
    library = _loaded(_path())
except (OSError, AttributeError) as fault:
    raise ImportError(f"polytwkb {VERSION} finds no library of its version: {fault}") from None


def _in_place(name: str) -> Any:
    """The same call while no other thread runs code of Python. It may read a buffer that Python code of another thread
    would change. What runs without the interpreter's lock, as loops of numpy do, is not kept from it."""
    call = getattr(ctypes.PyDLL(library._name), name)
    call.argtypes, call.restype = getattr(library, name).argtypes, Report
    return call


encode_in_place, write_in_place = _in_place("polytwkb_encode"), _in_place("polytwkb_write")


def reason_text(reason: int) -> str:
    """What a reason means, as the command says it."""
    return _text(library.polytwkb_reason_text, reason)


def options_of(limits: CLimits, style: int, *more: int) -> Any:
    """The options of a conversion: the size of all of them in bytes, the style, the limits, and more of them."""
    numbers = (style, limits.nest, limits.nodes, limits.points, *more)
    size = 4 * (1 + len(numbers))
    return (size // 4 * ctypes.c_uint32)(size, *numbers)


def some_bytes(count: int) -> Memory:
    """Memory of so many bytes, and of one where that is 0: the library takes the address of each buffer."""
    return memory_of(max(count, 1))


def filled(
    call: Callable[..., Any], given: Any, count: int, room: int, made: Callable[[int], _Buffer], *more: Any
) -> Tuple[Any, _Buffer]:
    """Calls the library with so many items of input and with room for so many items of output, in a buffer that `made` makes; with more
    room, as much as the library names, if that was too small, and with none before that if there is no memory for it. Returns the report
    and the buffer."""
    while True:
        try:
            output = made(room)
        except MemoryError:
            output, room = made(0), 0
        start = ctypes.c_char.from_buffer(output)  # type: ignore[arg-type]
        report = call(given, count, ctypes.addressof(start), room, *more)
        del start
        if report.status in (Status.DONE, Status.REFUSED):
            return report, output
        if report.status != Status.TOO_SMALL or report.needed <= room:
            raise MemoryError("out of memory")
        room = report.needed
