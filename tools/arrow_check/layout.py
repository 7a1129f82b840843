"""Reads structures in this process's memory and writes them as the texts that `arrowpipe --check` takes."""
import ctypes
import os
import re
from binascii import hexlify
from collections import defaultdict
from typing import Any, BinaryIO, Dict, Iterator, List, NamedTuple, Optional, Sequence, Tuple

from .abi import ArrowArray, ArrowSchema

# What each buffer of a type holds ("Data type description", "Buffer Listing for Each Layout"): a number is bits an item
# (`*`: times the number in the format), `+` means one item more, `@` the bytes up to the last offset.
LAYOUTS = {"n": "", "b": "1 1", "[cC]": "1 8", "[sSe]": "1 16", "[iIf]|tdD|tt[sm]|tiM": "1 32",
           "[lLg]|tdm|tt[un]|ts[smun]:.*|tD[smun]|tiD": "1 64", r"tin|d:\d+,-?\d+": "1 128", "[uz]": "1 +32 @32",
           "[UZ]": "1 +64 @64", r"w:(\d{1,10})": "1 *8", r"d:\d+,-?\d+,(\d{1,4})": "1 *1", r"\+[lm]": "1 +32",
           r"\+L": "1 +64", r"\+s|\+w:.*": "1", "v[uz]": "1 128 views", r"\+vl": "1 32 32", r"\+vL": "1 64 64",
           r"\+us:.*": "8", r"\+ud:.*": "8 32", r"\+r": ""}
LEFT_OUT = {r"\+v[lL]": "a list view", r"\+u[sd]:.*": "a union", r"\+r": "a run-end encoded array",
            r"d:\d+,-?\d+,(32|64)": "a decimal of 32 or 64 bits"}  # Arrow's types that the check doesn't take
MOST_LEVELS, MOST_COUNT = 64, 1 << 20  # levels of a checked schema; buffers or children of a node in a text
PIECE, LEAST_READ, LEAST_CHUNK = 1 << 17, 32, 1 << 14  # bytes: the most of a read; what a read and a chunk count for
PAGE, SHOWN = 4096, 80  # bytes of memory that are mapped as one; characters of a name that are shown
TOKENS = [chr(b) if 0x21 <= b <= 0x7E and b != 0x25 else f"%{b:02X}" for b in range(256)]


class Refused(Exception):
    """A result, and why: data that can't be written, a producer that failed, a rule broken that no text shows."""

    def __init__(self, result: str, fault: str, **more: Any) -> None:
        super().__init__(result, fault)
        self.said = {"result": result, "fault": fault, **more}


class Kind(NamedTuple):
    format: str
    name: Optional[bytes]
    n_children: int
    has_dictionary: bool


NO_KIND = Kind("", None, 0, False)


def token(text: Optional[bytes]) -> str:
    return "~" if text is None else "=" + "".join(map(TOKENS.__getitem__, text))


def shown(text: Any, most: int = SHOWN) -> str:
    """A text of a producer's, without line ends or escapes, and not longer than a person reads."""
    text = ascii(text.decode(errors="backslashreplace") if isinstance(text, bytes) else str(text))[1:-1]
    return text if len(text) <= most else text[:most] + "..."


def left_out(format: str) -> str:
    """What kind of type it is, if it is one of Arrow's that the check doesn't take."""
    return next((what for each, what in LEFT_OUT.items() if re.fullmatch(each, format)), "")


class Writer:
    """Writes structures as texts. It reads at most `most` bytes and writes twice as many. A wild address is no crash,
    but where memory is read `direct`ly. A column with a type that is left out is written as one of nulls."""

    def __init__(self, most: int, direct: bool = False) -> None:
        self.most, self.left, self.room, self.direct = most, most, 2 * most + PAGE, direct
        self.memory = -1 if direct else os.open("/proc/self/mem", os.O_RDONLY)
        self.kinds: Dict[str, Kind] = defaultdict(lambda: NO_KIND)
        self.begin(None)

    def __del__(self) -> None:
        if self.memory >= 0:
            os.close(self.memory)

    def begin(self, out: Optional[BinaryIO], is_whole: bool = False) -> None:
        self.out, self.is_whole, self.is_deep, self.lines = out, is_whole, False, []  # type: ignore
        self.spared: Dict[str, Any] = {}  # of the columns that are left out the first such format, and where they are

    def tree(self, schema: int, array: int, out: BinaryIO, is_whole: bool = False) -> None:
        """A schema and its array, each in preorder; a released array in place of none."""
        self.begin(out, is_whole)
        self.kinds.clear()
        self.line("tree 1")
        self.schema(schema, "")
        self.flush()
        self.array(array, "") if array else self.line("A !")
        self.flush()

    def pieces(self, address: int, size: int, what: str) -> Iterator[bytes]:
        """The `size` bytes from `address` on, or fewer where mapped memory ends."""
        while address and size > 0:
            asked = min(size, PIECE)
            self.left -= max(asked, LEAST_READ)
            if self.left < 0:
                raise Refused("not written", f"{what}: more bytes are asked for than --most allows")
            piece = self.read(address, asked)
            if not piece:
                return
            yield piece
            address, size = address + len(piece), size - len(piece)

    def read(self, address: int, size: int) -> bytes:
        try:
            return ctypes.string_at(address, size) if self.direct else os.pread(self.memory, size, address)
        except (OSError, OverflowError):
            return b""

    def exact(self, address: int, size: int, what: str) -> bytes:
        read = b"".join(self.pieces(address, size, what))
        if len(read) < size:
            raise Refused("not written", f"{what} at {address % 2**64:#x} isn't in mapped memory")
        return read

    def numbers(self, address: int, count: int, what: str) -> Sequence[int]:
        return memoryview(self.exact(address, 8 * count, what)).cast("q")

    def members(self, address: int, count: int, path: str, name: str) -> Sequence[int]:
        """The pointers that a member points to, none of them where there are none."""
        if count and not address:
            self.null(path, name)
        return self.numbers(address, count, f"{path or '/'}: {name}")

    def null(self, path: str, name: str) -> None:
        at = path or "/"
        raise Refused("unlawful", f"tree {at}: NullPointer: {name}", rule="NullPointer", path=at, member=name)

    def string(self, address: int, what: str) -> bytes:
        """A null-terminated string, read in steps that stay within a page."""
        if self.direct:
            size = ctypes.CDLL(None).strnlen(ctypes.c_void_p(address), ctypes.c_size_t(self.left)) if address else 1
            return self.exact(address, size + 1, what)[:-1]
        read: List[bytes] = []
        step = 64
        while not read or b"\0" not in read[-1]:
            step = min(step, PAGE - address % PAGE)
            read.append(self.exact(address, step, what))
            address, step = address + step, PAGE
        text = b"".join(read)
        return text[:text.index(b"\0")]

    def metadata(self, address: int, what: str) -> bytes:
        """The bytes up to the last value, or to a wrong number or the end of memory ("ArrowSchema.metadata")."""
        read: List[bytes] = [self.exact(address, 4, what)]
        size, more = 4, 2 * int.from_bytes(read[0], "little", signed=True)
        while more > 0:
            number = b"".join(self.pieces(address + size, 4, what))
            length = int.from_bytes(number, "little", signed=True)
            read.append(number)
            if len(number) < 4 or length < 0:
                break
            if self.leads_out(address + size, 4 * more - 4 + length):
                read.append(self.read(address + size + 4, 64))
                break
            read.append(b"".join(self.pieces(address + size + 4, length, what)))
            if len(read[-1]) < length:
                break
            size, more = size + 4 + length, more - 1
        return b"".join(read)

    def leads_out(self, address: int, size: int) -> bool:
        """Whether so many bytes, more than may be read, are more than mapped memory has."""
        return size > self.left and not all(self.read(address + size * i // 8, 1) for i in range(1, 9))

    def line(self, text: str, times: int = 1) -> None:
        self.spend((len(text) + 1) * times)
        self.lines.append(f"{text}\n".encode() * times)

    def spend(self, size: int) -> None:
        self.room -= size
        if self.room < 0:
            raise Refused("not written", "more is to be written than twice what --most allows")

    def flush(self) -> None:
        self.out.write(b"".join(self.lines))
        self.lines = []

    def node(self, form: Any, address: int, path: str) -> Any:
        """A node that is live; of any other the line is written."""
        where = f"{path or '/'}: {form.__name__}"
        if not address and path and not self.is_deep:
            self.null(path, "structure")
        node = None if self.is_deep else form(*self.numbers(address, len(form._fields), where))
        if not node or not node.release:
            return self.line("S !" if form is ArrowSchema else "A !")
        if not all(0 <= count <= MOST_COUNT for count in (getattr(node, "n_buffers", 0), node.n_children)):
            raise Refused("not written", f"{where} has {node.n_children} children, or wrongly many buffers")
        return node

    def schema(self, address: int, path: str) -> None:
        level, begins = path.count("/"), len(self.lines)
        self.is_deep = self.is_deep or level >= MOST_LEVELS
        node, where = self.node(ArrowSchema, address, path), path or "/"
        if not node:
            return
        if not node.format:
            self.null(path, "format")
        text = self.string(node.format, f"{where}: format")
        name = self.string(node.name, f"{where}: name") if node.name else None
        data = self.metadata(node.metadata, f"{where}: metadata") if node.metadata else None
        count, has_dictionary = node.n_children, bool(node.dictionary)
        kind = self.kinds[path] = Kind(text.decode("latin-1"), name, count, has_dictionary)
        column = "/".join(path.split("/")[:2])
        if column and not self.is_whole and left_out(kind.format):
            self.spared.setdefault(column, [kind.format, 0, 0])
        self.line(f"S {token(text)} {token(name)} {node.flags} {count} {has_dictionary:d} {token(data)}")
        for i, place in enumerate(self.members(node.children, count, path, "children")):
            self.schema(place, f"{path}/{i}")
        if has_dictionary:
            self.schema(node.dictionary, f"{path}/d")
        if level == 1 and path in self.spared:
            del self.lines[begins:]
            self.spared[path][1] = address
            self.line(f"S =n {token(name)} {node.flags} 0 0 ~")

    def array(self, address: int, path: str) -> None:
        """What a wrong count counts isn't read: that count's rule comes before those of what is written instead."""
        node = self.node(ArrowArray, address, path)
        if not node:
            return
        format, _, wanted, wants_dictionary = self.kinds[path]
        if path in self.spared:
            self.spared[path][2] = address
            return self.line(f"A {node.length} -1 {node.offset} 0 0 0")
        count, has_dictionary = node.n_children, bool(node.dictionary)
        self.line(f"A {node.length} {node.null_count} {node.offset} {node.n_buffers} {count} {has_dictionary:d}")
        self.buffers(format, node, path)
        self.flush()
        for i, place in enumerate(self.members(node.children, count, path, "children") if count == wanted else []):
            self.array(place, f"{path}/{i}")
        self.line("A !", count * (count != wanted) + (has_dictionary and not wants_dictionary))
        if has_dictionary and wants_dictionary:
            self.array(node.dictionary, f"{path}/d")

    def buffers(self, format: str, node: Any, path: str) -> None:
        """Each buffer's bytes, as many as the type asks for."""
        where = path or "/"
        rows = ((re.fullmatch(pattern, format, re.DOTALL), holds.split()) for pattern, holds in LAYOUTS.items())
        found, holds = next((row for row in rows if row[0]), (None, []))
        extra = node.n_buffers - 3 if "views" in holds else 0
        if not found or extra < 0 or len(holds) + extra != node.n_buffers or min(node.length, node.offset) < 0:
            return self.line("B ~", node.n_buffers)
        places = self.members(node.buffers, node.n_buffers, path, "buffers")
        times = int(found[1]) if found.groups() else 1
        sizes = [self.size(hold, node.length + node.offset, times, places) for hold in holds if hold != "views"]
        if "views" in holds:  # behind the views the data buffers, and last the lengths of these
            sizes += [*self.numbers(places[-1], extra, f"{where}: lengths of the data"), 8 * extra]
        for i, (place, size) in enumerate(zip(places, sizes)):
            self.content(place, size, f"{where}: buffer {i}")

    def content(self, place: int, size: int, what: str) -> None:
        self.lines.append(b"B =" if place else b"B ~")
        for piece in self.pieces(place, size, what):
            self.spend(2 * len(piece))
            self.flush()
            self.out.write(hexlify(piece))
        self.line("")

    def size(self, hold: str, n: int, times: int, places: Sequence[int]) -> int:
        """How many bytes a buffer needs where the window ends before item `n`."""
        bits = int(hold.strip("+@*")) * (times if hold[0] == "*" else 1)
        if n and hold[0] == "@":  # what the offset at place n says
            last = self.pieces(places[1] and places[1] + n * bits // 8, bits // 8, "the last offset")
            return int.from_bytes(b"".join(last), "little", signed=True)
        return ((n + (hold[0] == "+")) * bits + 7) // 8 if n else 0
