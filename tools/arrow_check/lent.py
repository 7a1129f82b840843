"""Live exports in pages of their own, which nobody can read once they are released (exports.py has what they hold)."""
import ctypes
import errno
from dataclasses import dataclass, field
from typing import Any, Callable, Dict, List, Optional, Tuple

from .abi import ArrowArray, ArrowArrayStream, ArrowSchema, room_at
from .exports import Column, Stream
from .record import BEYOND, END, FIXED, LIBC, LIVE, OLD_TEXT, PAGE, RELEASED, Record, pages

READ, WRITE, FILL, ALIGNED = 1, 2, b"\xee", 64
FORMS = {"schema": ArrowSchema, "array": ArrowArray, "stream": ArrowArrayStream}


@dataclass
class Held:
    """A structure that is lent: where it was put, what its members were, and the blocks that its release takes away."""
    kind: str
    label: str
    place: int
    parent: Optional["Held"]
    words: List[int] = field(default_factory=list)
    children: List["Held"] = field(default_factory=list)
    blocks: List[Any] = field(default_factory=list)
    released_at: int = 0  # 0 while it is live
    is_ours: bool = False  # whether its place is the tool's memory, and not what a taker of a stream has handed in
    stream: Optional[Stream] = None  # what a stream gives, the number of the next chunk, whether the last call failed
    next: int = 0
    failed: bool = False
    texts: List[Any] = field(default_factory=list)  # and the blocks of its errors' texts

    def now(self, place: int = 0) -> Any:
        return room_at(FORMS[self.kind], place or self.place)


class Lender:
    """Lends exports out and notes each step by which their taker breaks a rule."""

    def __init__(self, record: Record) -> None:
        self.record = record
        self.held: Dict[int, Held] = {}  # by private_data
        self.behind = self.block(b"", "a table of pointers", state=BEYOND)[0].to_bytes(8, "little")  # the last pointer of each
        self.roots: List[Held] = []
        release = ctypes.CFUNCTYPE(None, ctypes.c_void_p)
        ask = ctypes.CFUNCTYPE(ctypes.c_int, ctypes.c_void_p, ctypes.c_void_p)
        error = ctypes.CFUNCTYPE(ctypes.c_void_p, ctypes.c_void_p)
        self.callbacks = {kind: release(self.guarded(lambda at, kind=kind: self.release(kind, at))) for kind in FORMS}
        self.callbacks.update(get_schema=ask(self.guarded(self.get_schema)), get_next=ask(self.guarded(self.get_next)),
                              get_last_error=error(self.guarded(self.get_last_error)))
        self.address = {name: ctypes.cast(each, ctypes.c_void_p).value or 0 for name, each in self.callbacks.items()}

    def guarded(self, function: Callable) -> Callable:
        def act(*given: Any) -> Any:
            try:
                return function(*given)
            except Exception as why:  # ctypes would print it and go on
                self.record.note(result="raised", fault=f"{type(why).__name__}: {why}")
                return errno.EIO
        return act

    def note(self, rule: str, held: Held, detail: str = "") -> None:
        self.record.note(rule=rule, what=held.label, detail=detail)

    def block(self, data: bytes, label: str, is_open: bool = False, state: int = LIVE) -> Tuple[int, Any]:
        """Where the bytes are: at the end of their pages but for what aligns them, and with no page behind them."""
        room = -(-len(data) // PAGE) * PAGE
        start, behind = pages(None, room + PAGE), -len(data) % ALIGNED
        if room:
            LIBC.mprotect(start, room, READ | WRITE)
            ctypes.memmove(start, FILL * (room - len(data) - behind) + data + FILL * behind, room)
            if not is_open:
                LIBC.mprotect(start, room, READ)
        number = self.record.block(start, start + room, label, state)
        return start + room - len(data) - behind, (number, start, room)

    def own(self, owner: Held, data: bytes, label: str, is_open: bool = False) -> int:
        """A block that the release of `owner` takes away."""
        address, block = self.block(data, f"{owner.label}: {label}", is_open)
        owner.blocks.append(block)
        return address

    def place(self, kind: str) -> int:
        """Room for a structure that is handed over."""
        return self.block(bytes(8 * len(FORMS[kind]._fields)), f"the place of the {kind}", is_open=True)[0]

    def close(self, block: Any, state: int = RELEASED) -> None:
        number, start, room = block
        self.record.state(number, state)
        if room:
            pages(start, room, FIXED)

    def begin(self, kind: str, label: str, place: int, parent: Optional[Held]) -> Held:
        held = Held(kind, label, place, parent)
        (parent.children if parent else self.roots).append(held)
        return held

    def finish(self, held: Held, key: int, *members: int) -> None:
        self.held[key] = held
        held.words = [*members, self.address[held.kind], key]
        held.now()[:] = held.words

    def below(self, held: Held, column: Column) -> List[int]:
        """Where the structures of the children and of the dictionary are put."""
        count, size = len(column.children) + (column.dictionary is not None), 8 * len(FORMS[held.kind]._fields)
        start = self.own(held, bytes(count * size), "the memory of its children", is_open=True) if count else 0
        return [start + i * size for i in range(count)]

    def lend(self, kind: str, column: Column, place: int, label: str, parent: Optional[Held] = None) -> Held:
        """Fill in a structure at `place`, with its children and its dictionary."""
        held = self.begin(kind, label, place, parent)
        places = self.below(held, column)
        below = [*column.children, *([column.dictionary] if column.dictionary else [])]
        ways = [*map(str, range(len(column.children))), "d"]
        for child, at, way in zip(below, places, ways):
            self.lend(kind, child, at, f"{label}/{way}" if parent else f"{label} /{way}", held)
        children = b"".join(at.to_bytes(8, "little") for at in places[:len(column.children)])
        dictionary = places[-1] if column.dictionary else 0
        (self.schema if kind == "schema" else self.array)(held, column, children, dictionary)
        return held

    def schema(self, held: Held, column: Column, children: bytes, dictionary: int) -> None:
        texts = [column.format.encode() + b"\0", None if column.name is None else column.name.encode() + b"\0",
                 column.metadata]
        table = children + self.behind
        start = self.own(held, table + b"".join(text or b"" for text in texts),
                         "the memory of its format, name and metadata")
        places, end = [], start + len(table)
        for text in texts:
            places.append(0 if text is None else end)
            end += len(text or b"")
        self.finish(held, start, *places, column.flags, len(column.children), start if children else 0, dictionary)

    def array(self, held: Held, column: Column, children: bytes, dictionary: int) -> None:
        buffers = [0 if data is None else self.own(held, data, f"buffer {i}") for i, data in enumerate(column.buffers)]
        table = b"".join(each.to_bytes(8, "little") for each in buffers) + self.behind
        start = self.own(held, table + children + self.behind, "the memory of its pointers")
        self.finish(held, start, column.length, column.nulls, column.offset, len(buffers), len(column.children),
                    start if buffers else 0, start + len(table) if children else 0, dictionary)

    def lend_stream(self, stream: Stream, place: int, label: str = "stream") -> Held:
        held = self.begin("stream", label, place, None)
        held.stream = stream
        key = self.own(held, bytes(8), "the memory of its private_data")
        self.finish(held, key, *(self.address[name] for name in ("get_schema", "get_next", "get_last_error")))
        return held

    def called(self, kind: str, at: int, name: str) -> Optional[Held]:
        """The structure whose callback is called, by its private_data, or else by its place."""
        held = self.held.get(room_at(FORMS[kind], at)[-1]) if at else None
        held = held or next((each for each in self.held.values() if at and each.place == at), None)
        if held and held.kind == kind:
            return held
        self.record.note(rule="ChangedMember", what=kind, detail=f"{name} is called "
                         + ("for a structure whose private_data isn't what it was" if at else "without its structure"))
        return None

    def release(self, kind: str, at: int) -> None:
        held = self.called(kind, at, "release")
        if held is None:
            return
        if held.released_at:
            return self.note("ReleasedTwice", held)
        if held.parent and not held.parent.released_at and held.now()[-2]:
            self.note("ReleasedChild" if at == held.place else "SourceNotReleased", held)
            held.now()[-2] = 0  # the parent's release would act on it again
        self.end(held, at)

    def end(self, held: Held, at: int) -> None:
        """What a release does: it releases the children that are in their places, and takes the memory away."""
        words = held.now(at)
        for name, was, now in zip(FORMS[held.kind]._fields, held.words, words):
            if was != now and (name != "release" or now):
                self.note("ChangedMember", held, f"{name} was {was} and is {now}")
        held.released_at = at
        for child in held.children:
            if child.now()[-2]:
                self.note("ReleasedTwice", child) if child.released_at else self.end(child, child.place)
        for block in held.blocks:
            self.close(block)
        for block in held.texts:
            self.close(block, OLD_TEXT)
        words[-2] = 0

    def stream_call(self, at: int, name: str) -> Optional[Held]:
        """A stream of which something is asked, with the last call's text taken away."""
        held = self.called("stream", at, name)
        if held and held.released_at:
            return self.note("CalledReleased", held, name)
        if held and name != "get_last_error":
            if held.failed and name == "get_next":
                self.note("ReadPastError", held)
            for block in held.texts:
                self.close(block, OLD_TEXT)
            held.failed = False
        return held

    def get_schema(self, at: int, out: int) -> int:
        held = self.stream_call(at, "get_schema")
        if held is None or held.stream is None:
            return errno.EINVAL
        held.failed = held.stream.fails_at_once
        if not held.failed:
            self.lend("schema", held.stream.type, out, "schema")
        return held.stream.error if held.failed else 0

    def get_next(self, at: int, out: int) -> int:
        held = self.stream_call(at, "get_next")
        if held is None or held.stream is None:
            return errno.EINVAL
        number, chunks = held.next, held.stream.chunks
        held.next += 1
        if number < len(chunks):
            self.lend("array", chunks[number], out, f"chunk {number}")
        elif held.stream.error:
            held.failed = True
            return held.stream.error
        else:  # marked released, and the other members lead nowhere
            trap = self.block(b"", "what stands in the structure behind the last chunk", state=END)[0]
            room_at(ArrowArray, out)[:] = [3, 0, 0, 1, 1, trap, trap, trap, 0, trap]
        return 0

    def get_last_error(self, at: int) -> int:
        held = self.stream_call(at, "get_last_error")
        if held is None or held.stream is None or not held.failed:
            if held:
                self.note("AskedNoError", held)
            return 0
        if held.stream.last_error is None:
            return 0
        text, block = self.block(held.stream.last_error.encode() + b"\0", "stream: the text of get_last_error")
        held.texts.append(block)
        return text

    def judge(self, held: Held, was_refused: bool) -> None:
        """What the taker, which has returned, left behind. What it refused may have stayed where it was."""
        is_here = held.is_ours and held.now()[-2]
        if held.released_at and is_here:
            self.note("SourceNotReleased", held)
        if held.released_at:
            for child in held.children:
                self.judge(child, was_refused)
        elif was_refused and is_here:
            self.end(held, held.place)
        else:
            self.note("NeverReleased", held, "" if is_here else "it was moved")
