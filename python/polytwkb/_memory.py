"""Memory that the library reads and writes."""
from __future__ import annotations

import ctypes
import mmap
import sys
from typing import Any, Union

# Memory of this size and above is mapped, so that what is not written takes none.
_MAPPED = 1 << 16
# From here on it is asked for in large pages.
_LARGE = 1 << 22
_FLAGS = mmap.MAP_PRIVATE | mmap.MAP_ANONYMOUS | getattr(mmap, "MAP_NORESERVE", 0x4000)

Memory = Union[bytearray, mmap.mmap]


def memory_of(size: int) -> Memory:
    """Memory of so many bytes, all 0."""
    if size < _MAPPED:
        return bytearray(size)
    try:
        memory = mmap.mmap(-1, size, flags=_FLAGS)
    except (OSError, OverflowError, ValueError):
        raise MemoryError("out of memory") from None
    if size >= _LARGE and hasattr(mmap, "MADV_HUGEPAGE"):
        memory.madvise(mmap.MADV_HUGEPAGE)
    return memory


def shortened(memory: Memory, size: int) -> Memory:
    """The memory with its first bytes alone, if it is mapped and has any."""
    if isinstance(memory, mmap.mmap) and size:
        memory.resize(size)
    return memory


def address_of(memory: Any) -> int:
    """Where memory that can be written begins; it must be kept meanwhile."""
    return ctypes.addressof(ctypes.c_char.from_buffer(memory))


def address_of_bytes(memory: bytes) -> int:
    """The same of bytes, which are not written."""
    return ctypes.cast(ctypes.c_char_p(memory), ctypes.c_void_p).value or 0


def copied(view: memoryview) -> memoryview:
    """The bytes of a contiguous buffer in memory that no one else writes to."""
    if view.format != "B" or not view.nbytes:
        return memoryview(view.tobytes())
    copy = memoryview(memory_of(view.nbytes))[: view.nbytes]
    copy[:] = view
    return copy


def borrowed(view: memoryview) -> Any:
    """What the library reads of a contiguous buffer of numbers of 64 bits: its address, which keeps it, or a copy as
    bytes if it cannot be written, if it is not aligned, or if other threads of Python run while it is read in place."""
    is_free = not getattr(sys, "_is_gil_enabled", lambda: True)()
    if view.readonly or not view.nbytes or is_free:
        return view.tobytes()
    start = ctypes.c_char.from_buffer(view)
    return view.tobytes() if ctypes.addressof(start) % 8 else ctypes.byref(start)
