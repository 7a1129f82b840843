"""What is done to memory that was lent to a consumer: a record that outlives the consumer's process."""
import ctypes
import json
import mmap
import platform
import signal
import struct
from typing import Any, Dict, List, Optional

PAGE = mmap.PAGESIZE
LIVE, RELEASED, END, OLD_TEXT, BEYOND = range(5)
MOST_NOTES, MOST_BLOCKS = 1 << 16, 1 << 15
HEAD, BLOCK = struct.Struct("<3q"), struct.Struct("<3q104s")  # fault, notes, blocks; start, end, state, label
RULE_OF = {RELEASED: "ReadReleased", END: "ReadPastEnd", OLD_TEXT: "ReadOldError", BEYOND: "ReadBeyond"}
# void (int, siginfo_t *info, void *): stores info->si_addr. mov rax, SLOT; mov rcx, [rsi+16]; mov [rax], rcx; ret
HANDLER = (b"\x48\xb8", b"\x48\x8b\x4e\x10\x48\x89\x08\xc3")
SIGINFO, RESETHAND = 4, 0x80000000
LIBC = ctypes.CDLL(None, use_errno=True)
LIBC.mmap.restype = ctypes.c_void_p
LIBC.mmap.argtypes = [ctypes.c_void_p, ctypes.c_size_t, ctypes.c_int, ctypes.c_int, ctypes.c_int, ctypes.c_int64]
LIBC.mprotect.argtypes = [ctypes.c_void_p, ctypes.c_size_t, ctypes.c_int]
NO_ACCESS, ANONYMOUS, FIXED = 0, mmap.MAP_PRIVATE | mmap.MAP_ANONYMOUS, 0x10


class Action(ctypes.Structure):
    """Linux's struct sigaction."""
    _fields_ = [("handler", ctypes.c_void_p), ("mask", ctypes.c_ulong * 16), ("flags", ctypes.c_uint),
                ("restorer", ctypes.c_void_p)]


def pages(address: Optional[int], size: int, more: int = 0) -> int:
    """Private pages that nobody can read, with nothing in them."""
    found = LIBC.mmap(address, size, NO_ACCESS, ANONYMOUS | more, -1, 0)
    if found in (None, 2**64 - 1):
        raise MemoryError(f"mmap: errno {ctypes.get_errno()}")
    return found


class Record:
    def __init__(self) -> None:
        self.memory = mmap.mmap(-1, PAGE + MOST_NOTES + MOST_BLOCKS * BLOCK.size)  # shared with children
        self.address = ctypes.addressof(ctypes.c_char.from_buffer(self.memory))

    def head(self) -> List[int]:
        return list(HEAD.unpack_from(self.memory, 0))

    def begin(self) -> None:
        HEAD.pack_into(self.memory, 0, -1, 0, 0)

    def note(self, **said: Any) -> None:
        """Keep what happened; behind the room for it nothing is kept."""
        line = json.dumps(said).encode() + b"\n"
        fault, used, count = self.head()
        if used + len(line) <= MOST_NOTES:
            self.memory[PAGE + used:PAGE + used + len(line)] = line
            HEAD.pack_into(self.memory, 0, fault, used + len(line), count)

    def notes(self) -> List[Dict[str, Any]]:
        return [json.loads(line) for line in self.memory[PAGE:PAGE + self.head()[1]].splitlines()]

    def block(self, start: int, end: int, label: str, state: int = LIVE) -> int:
        """A block from `start` to `end`, behind which a page can't be read. Gives its number."""
        fault, used, count = self.head()
        if count < MOST_BLOCKS:
            HEAD.pack_into(self.memory, 0, fault, used, count + 1)
            place = PAGE + MOST_NOTES + count * BLOCK.size
            BLOCK.pack_into(self.memory, place, start, end, state, label.encode()[:104])
        return count

    def state(self, number: int, state: int) -> None:
        if number < MOST_BLOCKS:
            struct.pack_into("<q", self.memory, PAGE + MOST_NOTES + number * BLOCK.size + 16, state)

    def fault(self) -> Optional[Dict[str, Any]]:
        """The rule that an access broke by which the process ended, and the block; of any other address that alone."""
        address, _, count = self.head()
        if address == -1:
            return None
        for number in range(count):
            start, end, state, label = BLOCK.unpack_from(self.memory, PAGE + MOST_NOTES + number * BLOCK.size)
            if start <= address < end + PAGE:
                rule = RULE_OF[state] if state != LIVE else "ReadBeyond" if address >= end else "WroteData"
                return {"rule": rule, "what": label.rstrip(b"\0").decode(errors="replace")}
        return {"address": hex(address % 2**64) if address else "0x0: a null pointer, or one to no place that there can be"}

    def watch(self) -> None:
        """Have the address of a fault kept, before the process ends by that fault."""
        if platform.machine() != "x86_64":
            return
        code = HANDLER[0] + struct.pack("<Q", self.address) + HANDLER[1]
        place = pages(None, PAGE)
        LIBC.mprotect(place, PAGE, mmap.PROT_READ | mmap.PROT_WRITE)
        ctypes.memmove(place, code, len(code))
        if LIBC.mprotect(place, PAGE, mmap.PROT_READ | mmap.PROT_EXEC) == 0:  # a hardened system allows none
            action = Action(handler=place, flags=SIGINFO | RESETHAND)
            for each in (signal.SIGSEGV, signal.SIGBUS):
                LIBC.sigaction(each, ctypes.byref(action), None)
