"""The lifetimes of streams and of what they give: each function tries a rule, in a process of its own."""
import ctypes
from functools import partial
from typing import Any, Dict, List, Tuple

from . import heap
from .abi import ArrowArray, ArrowSchema, GARBAGE, call, is_live, last_error, moved, release, room
from .arrays import Bench, Trial, elsewhere, let_go, once_more, outlives, search_leak
from .layout import LEAST_CHUNK, Refused, shown
from .source import Broken, Export, Inapplicable, NotTried

MOST_CHUNKS = 64  # that are kept at once


class Reader:
    """A stream of ours that is read. Its schema and chunks are ours too."""

    def __init__(self, bench: Bench, export: Export) -> None:
        self.bench, self.stream, self.left = bench, export.stream, bench.sums.most
        self.chunks: List[Any] = []
        self.schema = room(ArrowSchema)
        bench.made.append(self)
        self.code = call(self.stream, "get_schema", self.schema)
        if self.code:
            self.schema = room(ArrowSchema)

    def next(self) -> Any:
        """The next chunk, or None at the end, at an error and where it has been enough."""
        if self.code or len(self.chunks) >= MOST_CHUNKS or self.left <= 0:
            return None
        chunk = room(ArrowArray)
        self.code = call(self.stream, "get_next", chunk)
        if self.code or not is_live(chunk):
            return None
        self.chunks.append(chunk)
        return chunk

    def all(self) -> List[Dict[str, int]]:
        """The sums of all chunks, each as it came."""
        sums = [self.sum(chunk) for chunk in self.chunks]
        while self.next() is not None:
            sums.append(self.sum(self.chunks[-1]))
        return sums

    def sum(self, chunk: Any) -> Dict[str, int]:
        if not self.bench.sums.kinds:
            self.bench.sums.of_schema(ctypes.addressof(self.schema))
        sums = self.bench.sums.of_array(ctypes.addressof(chunk))
        self.left -= self.bench.sums.most - self.bench.sums.left + heap.EXPORTS
        return sums

    def owned(self) -> List[Any]:
        return [*self.chunks, self.schema, self.stream]

    def release(self) -> None:
        for each in self.owned():
            release(each)


def read(bench: Bench) -> Tuple[Reader, List[Dict[str, int]]]:
    """A stream whose chunks are all there, as many as are kept, and their sums, as they came."""
    reader = Reader(bench, bench.make())
    sums = reader.all()
    if not sums:
        raise Inapplicable("there is no chunk")
    return reader, sums


def try_moved(bench: Bench) -> None:
    export = bench.make()
    export.move()
    reader = Reader(bench, export)
    number = 0
    while reader.next() is not None:
        chunk = reader.chunks[-1]
        before = reader.sum(chunk)
        reader.chunks[-1] = moved(chunk, spoils=True)
        bench.same("Moved", before, reader.sum(reader.chunks[-1]), "it is moved", f" of chunk {number}")
        reader.stream = moved(reader.stream, spoils=True)
        number += 1
    if reader.code and bench.seen.get("end") == "end":
        raise Broken("Moved", f"a stream that is moved answers {reader.code}, where one in its place gives its chunks")
    for each in reader.owned():
        let_go("Moved", each, "at its new place")


def try_chunk_changed(bench: Bench) -> None:
    reader, sums = read(bench)
    for number, chunk in enumerate(reader.chunks):
        bench.same("ChunkChanged", sums[number], reader.sum(chunk), "a later one is asked for", f" of chunk {number}")
    reader.release()


def try_chunk_order(bench: Bench) -> None:
    reader, sums = read(bench)
    if len(sums) < 2:
        raise Inapplicable("there is one chunk")
    for chunk in reversed(reader.chunks[1::2]):
        let_go("ChunkOrder", chunk, "before earlier ones")
    heap.overwrite_freed()
    for number in range(0, len(sums), 2):
        after = reader.sum(reader.chunks[number])
        bench.same("ChunkOrder", sums[number], after, "a later one is released", f" of chunk {number}")
    for chunk in reversed(reader.chunks[::2]):
        let_go("ChunkOrder", chunk, "before earlier ones")
    reader.release()


def try_stream_first(bench: Bench) -> None:
    reader = Reader(bench, bench.make())
    sums = reader.all()
    if not is_live(reader.schema):
        raise Inapplicable("there is no schema")
    schema = bench.sums.of_schema(ctypes.addressof(reader.schema))
    let_go("StreamFirst", reader.stream, "before its chunks")
    heap.overwrite_freed()
    for number, (chunk, before) in enumerate(zip(reader.chunks, sums)):
        bench.same("StreamFirst", before, reader.sum(chunk), "the stream is released before it", f" of chunk {number}")
    after = bench.sums.of_schema(ctypes.addressof(reader.schema))
    bench.same("StreamFirst", schema, after, "the stream is released before it", " of the schema")
    for each in [*reader.chunks, reader.schema]:
        let_go("StreamFirst", each, "after its stream")


def try_schema_first(bench: Bench) -> None:
    reader = Reader(bench, bench.make())
    if reader.next() is None:
        raise Inapplicable("there is no chunk")
    before = reader.sum(reader.chunks[0])
    let_go("SchemaFirst", reader.schema, "before the chunks")
    heap.overwrite_freed()
    bench.same("SchemaFirst", before, reader.sum(reader.chunks[0]), "the schema is released before it")
    while reader.next() is not None:
        reader.sum(reader.chunks[-1])
    for each in [*reader.chunks, reader.stream]:
        let_go("SchemaFirst", each, "after the schema")


def try_two_exports(bench: Bench) -> None:
    probe, sums = read(bench)
    begins, count = sums[0], len(sums)
    probe.release()
    first, second = Reader(bench, once_more(bench)), Reader(bench, once_more(bench))
    if first.next() is None or first.sum(first.chunks[0]) != begins:
        raise NotTried("it gives one export alone, or something else each time")
    if second.next() is None:
        raise Broken("TwoExports", "a stream has no chunk when another one was read meanwhile")
    before = second.sum(second.chunks[0])
    bench.same("TwoExports", begins, before, "another stream was read meanwhile")
    first.release()
    heap.overwrite_freed()
    bench.same("TwoExports", before, second.sum(second.chunks[0]), "an earlier stream is released")
    got = len(second.all())
    if got != count:
        raise Broken("TwoExports", f"a stream gives {got} chunks, and not {count}, when an earlier one is released")
    third, before = Reader(bench, once_more(bench)), second.sum(second.chunks[0])
    third.next()
    bench.same("TwoExports", before, second.sum(second.chunks[0]), "a third stream is read after that")
    third.release()
    heap.overwrite_freed()
    bench.same("TwoExports", before, second.sum(second.chunks[0]), "a later stream is released")
    for each in second.owned():
        let_go("TwoExports", each, "after an earlier stream is released")


def try_child_moved(bench: Bench) -> None:
    export = bench.make()
    for all_of_them in (True, False):
        reader = Reader(bench, export)
        if reader.next() is None or not reader.chunks[0][4]:
            raise Inapplicable("there is no child")
        outlives(bench, reader.schema, reader.chunks[0], all_of_them)
        reader.release()
        try:
            export = once_more(bench) if all_of_them else export
        except NotTried:
            return


def try_other_thread(bench: Bench) -> None:
    reader = Reader(bench, bench.make())
    reader.next()
    elsewhere("OtherThread", reader.owned())


def to_the_end(bench: Bench, garbage: int) -> Reader:
    """A stream of which the end has been given, into structures of garbage."""
    if bench.seen.get("end") != "end":
        raise Inapplicable("the stream ends with an error")
    reader = Reader(bench, bench.make())
    while reader.left > 0:
        chunk = room(ArrowArray)
        chunk[:] = [garbage] * len(chunk)
        if reader.code or call(reader.stream, "get_next", chunk):
            raise NotTried("the stream ends with an error this time")
        if not is_live(chunk):
            return reader
        if chunk[-2] == GARBAGE:
            raise Broken("EndMark", "get_next answers 0 and leaves what was in the structure")
        release(chunk)
        reader.left -= LEAST_CHUNK
    raise NotTried("the end isn't reached")


def try_end_mark(bench: Bench) -> None:
    to_the_end(bench, GARBAGE).release()


def try_end_again(bench: Bench) -> None:
    reader = to_the_end(bench, 0)
    for _ in range(2):
        chunk = room(ArrowArray)
        code = call(reader.stream, "get_next", chunk)
        if code or is_live(chunk):
            raise Broken("EndAgain", f"get_next answers {code} after the end" if code else "there is a chunk after the end")
    reader.release()


def try_last_error(bench: Bench) -> None:
    if bench.seen.get("end") == "end":
        raise Inapplicable("there is no error")
    reader = Reader(bench, bench.make())
    while reader.next() is not None:
        release(reader.chunks.pop())
        reader.left -= LEAST_CHUNK
    if not reader.code:
        raise NotTried("there is no error this time")
    place = last_error(reader.stream)
    if not place:
        return
    said = []
    for _ in range(2):
        try:
            bench.sums.left = bench.sums.most
            said.append(bench.sums.string(place, "the last error"))
            said[-1].decode()
        except Refused:
            raise Broken("LastError", "the last error isn't in mapped memory, or has no end")
        except UnicodeDecodeError:
            raise Broken("LastError", f"the last error isn't UTF-8: {shown(said[-1])}")
        heap.overwrite_freed()
    if said[0] != said[1]:
        raise Broken("LastError", f"the last error '{shown(said[0])}' becomes '{shown(said[1])}' without another call")
    reader.release()


def try_leak(bench: Bench) -> None:
    def whole() -> None:
        reader = Reader(bench, bench.make())
        while reader.next() is not None:
            release(reader.chunks.pop())
            reader.left -= bench.sums.most // MOST_CHUNKS
        if reader.code:
            last_error(reader.stream)
        reader.release()
        bench.made.clear()

    def begun(make: Any = bench.make) -> Any:
        """A stream that is released after its first chunk: whether it has one, and what it answered."""
        reader = Reader(bench, make())
        said = reader.next() is not None, reader.code
        reader.release()
        bench.made.clear()
        return said

    if begun() != begun(partial(once_more, bench)):
        raise NotTried("there is no second export")
    search_leak(bench, whole, "stream")
    search_leak(bench, begun, "stream that is released after its first chunk")


OF_STREAMS: Dict[str, Trial] = {
    "Moved": try_moved, "SchemaFirst": try_schema_first, "ChunkChanged": try_chunk_changed, "TwoExports": try_two_exports,
    "ChildMoved": try_child_moved, "OtherThread": try_other_thread, "ChunkOrder": try_chunk_order,
    "StreamFirst": try_stream_first, "EndMark": try_end_mark, "EndAgain": try_end_again, "LastError": try_last_error}
