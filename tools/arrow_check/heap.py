"""The C library's allocator: what it has given out, and freed memory that is overwritten, so that a use of it is seen."""
import ctypes
import gc
import os
import time
from typing import Any, Callable, Dict, List

from .layout import PAGE

M_PERTURB, FILL = -6, 0xA5  # mallopt's number for the byte that freed memory is filled with, and that byte
CACHED, OF_A_SIZE = range(16, 1041, 16), 7  # the blocks that each thread keeps back, which mallopt's byte doesn't reach
MOST_OTHERS = 500  # blocks of other sizes that are passed over
WARM_UP, EXPORTS, ROUNDS, SECONDS = 3, 8, 20, 0.2  # of a search for a leak; seconds a round
C = ctypes.CDLL(None)
C.malloc.restype = ctypes.c_void_p
C.malloc.argtypes = [ctypes.c_size_t]
C.free.argtypes = C.malloc_usable_size.argtypes = [ctypes.c_void_p]
C.malloc_usable_size.restype = ctypes.c_size_t


class Info(ctypes.Structure):
    _fields_ = [(name, ctypes.c_size_t) for name in (
        "arena", "ordblks", "smblks", "hblks", "hblkhd", "usmblks", "fsmblks", "uordblks", "fordblks", "keepcost")]


def fill_what_is_freed() -> None:
    if hasattr(C, "mallopt"):
        C.mallopt(M_PERTURB, FILL)


def overwrite_freed() -> None:
    """Overwrites the freed blocks that this thread keeps back, of which there then are as many as it may keep."""
    gc.collect()
    blocks: List[int] = []
    others: List[int] = []  # larger than was asked for: they aren't kept back with those of that size
    for size in CACHED:
        end = len(blocks) + OF_A_SIZE
        while len(blocks) < end:
            block = C.malloc(size)
            ctypes.memset(block, FILL, size)
            is_larger = len(others) < MOST_OTHERS and C.malloc_usable_size(block) != size + 8
            (others if is_larger else blocks).append(block)
    for block in blocks + others:
        C.free(block)


def is_counted() -> bool:
    return hasattr(C, "mallinfo2")


def taken(with_maps: bool) -> Dict[str, int]:
    """What is given out, with the blocks that this thread keeps back, which are as many each time."""
    overwrite_freed()
    C.mallinfo2.restype = Info
    info = C.mallinfo2()
    found = {"byte": info.uordblks + info.hblkhd, "open file": len(os.listdir("/proc/self/fd"))}
    if with_maps and not hasattr(C, "__asan_init"):
        with open("/proc/self/statm") as file:
            found["mapped byte"] = int(file.read().split()[0]) * PAGE - info.arena - info.hblkhd
    return found


def kept(act: Callable[[], Any], with_maps: bool = False) -> str:
    """What each call keeps, in every round of some calls, or nothing."""
    began = time.monotonic()
    for _ in range(WARM_UP):
        act()
        taken(with_maps)
    one = max(1e-6, (time.monotonic() - began) / WARM_UP)
    calls = max(1, min(EXPORTS, int(SECONDS / one)))
    least: Dict[str, int] = {}
    for _ in range(ROUNDS):
        before = taken(with_maps)
        for _ in range(calls):
            act()
        after = taken(with_maps)
        for what, was in before.items():
            growth = -((was - after[what]) // calls)  # rounded up
            least[what] = min(growth, least.get(what, growth))
        if max(least.values()) <= 0:
            return ""
    return next(f"{count} {what}{'s' * (count != 1)}" for what, count in least.items() if count > 0)
