"""The lifetimes of schemas and arrays: each function tries a rule on exports of a source, in a process of its own."""
import ctypes
import gc
import threading
from typing import Any, Callable, Dict, List, Optional

from . import heap
from .abi import ArrowArray, GARBAGE, is_live, moved, release, room_at
from .source import Broken, Export, Inapplicable, NotTried, Source
from .sums import Sums, changed
from .verdict import column_of


class Bench:
    """What a trial works with. `seen` is what the trial of the layout saw: the chunks, and how the stream ended."""

    def __init__(self, source: Source, most: int, direct: bool, seen: Dict[str, Any]) -> None:
        self.source, self.sums, self.seen = source, Sums(most, direct), seen
        self.made: List[Any] = []  # all that has been made, by what owns it

    def make(self) -> Export:
        self.made.append(self.source.make())
        return self.made[-1]  # type: ignore

    def close(self) -> None:
        """Releases what a trial that isn't gone through has left."""
        for owner in reversed(self.made):
            for each in owner.owned():
                release(each)

    def schema(self, export: Export) -> Dict[str, int]:
        return self.sums.of_schema(ctypes.addressof(export.schema))

    def array(self, export: Export) -> Dict[str, int]:
        return self.sums.of_array(ctypes.addressof(export.array)) if has_array(export) else {}

    def both(self, export: Export) -> Dict[str, int]:
        """The sums of a schema and of its array, which is read by it."""
        schema = self.schema(export)
        return {**{f"S{path}": one for path, one in schema.items()},
                **{f"A{path}": one for path, one in self.array(export).items()}}

    def same(self, rule: str, before: Dict[str, int], after: Dict[str, int], when: str, of: str = "") -> None:
        path = changed(before, after)
        if path is not None:
            path = path.lstrip("SA")
            raise Broken(rule, f"{column_of(self.sums.kinds, path)}{of} changes when {when}", path or "/")


def has_array(export: Export) -> bool:
    return export.array is not None and is_live(export.array)


def let_go(rule: str, owned: Any, where: str) -> None:
    """Releases what is ours, which must mark it."""
    if not release(owned):
        raise Broken(rule, f"the release of {owned.form.__name__} doesn't mark it {where}")


def try_moved(bench: Bench) -> None:
    export = bench.make()
    before = bench.both(export)
    export.move()
    bench.same("Moved", before, bench.both(export), "it is moved")
    for each in export.owned():
        let_go("Moved", each, "at its new place")
    for old in export.old:
        if list(old)[:-2] != [GARBAGE] * (len(old) - 2) or is_live(old):
            raise Broken("Moved", f"the release of {old.form.__name__} writes to its old place")


def try_schema_first(bench: Bench) -> None:
    export = bench.make()
    bench.schema(export)
    before = bench.array(export)
    if not before:
        raise Inapplicable("there is no array")
    let_go("SchemaFirst", export.schema, "before the array")
    heap.overwrite_freed()
    bench.same("SchemaFirst", before, bench.array(export), "the schema is released before it")
    let_go("SchemaFirst", export.array, "after the schema")


def try_array_first(bench: Bench) -> None:
    export = bench.make()
    if not has_array(export):
        raise Inapplicable("there is no array")
    before = bench.schema(export)
    let_go("ArrayFirst", export.array, "before the schema")
    heap.overwrite_freed()
    bench.same("ArrayFirst", before, bench.schema(export), "the array is released before it")
    let_go("ArrayFirst", export.schema, "after the array")


def once_more(bench: Bench) -> Export:
    """A second export, which not every source gives."""
    try:
        export = bench.make()
    except Exception as why:
        raise NotTried(f"there is no second export: {type(why).__name__}: {why}")
    if not any(map(is_live, export.owned())):
        raise NotTried("there is no second export")
    return export


def try_two_exports(bench: Bench) -> None:
    first = bench.make()
    before = bench.both(first)
    second = once_more(bench)
    bench.same("TwoExports", before, bench.both(first), "a second export is made")
    before = bench.both(second)
    for each in first.owned():
        release(each)
    heap.overwrite_freed()
    bench.same("TwoExports", before, bench.both(second), "an earlier export is released")
    third = once_more(bench)
    bench.same("TwoExports", before, bench.both(second), "a third export is made after that")
    for each in third.owned():
        let_go("TwoExports", each, "while an earlier export is live")
    heap.overwrite_freed()
    bench.same("TwoExports", before, bench.both(second), "a later export is released")
    for each in second.owned():
        let_go("TwoExports", each, "after an earlier export is released")


def take_children(array: Any, which: List[int]) -> List[Any]:
    """Moves children out of an array of ours."""
    places = (ctypes.c_int64 * array[4]).from_address(array[6])
    return [moved(room_at(ArrowArray, places[i])) for i in which]


def outlives(bench: Bench, schema: Any, array: Any, all_of_them: bool) -> None:
    """Whether children that are moved out of an array outlive it."""
    bench.sums.of_schema(ctypes.addressof(schema))
    which = list(range(array[4] if all_of_them else 1))
    children = take_children(array, which)
    sums = [bench.sums.of_array(ctypes.addressof(child), f"/{i}") for i, child in zip(which, children)]
    release(array)
    heap.overwrite_freed()
    for i, child in zip(which, children):
        after = bench.sums.of_array(ctypes.addressof(child), f"/{i}")
        bench.same("ChildMoved", sums[i], after, "the parent is released that it was moved out of")
    for child in reversed(children):
        let_go("ChildMoved", child, "where it was moved out of its parent")


def try_child_moved(bench: Bench) -> None:
    export = bench.make()
    if not has_array(export) or not export.array[4]:
        raise Inapplicable("there is no child")
    outlives(bench, export.schema, export.array, True)
    release(export.schema)
    try:
        export = once_more(bench)
    except NotTried:
        return
    outlives(bench, export.schema, export.array, False)
    release(export.schema)


def elsewhere(rule: str, owned: List[Any]) -> None:
    """Releases on another thread."""
    unmarked: List[str] = []

    def act() -> None:
        unmarked.extend(each.form.__name__ for each in owned if not release(each))

    thread = threading.Thread(target=act)
    thread.start()
    thread.join()
    if unmarked:
        raise Broken(rule, f"the release of {unmarked[0]} doesn't mark it on another thread")


def try_other_thread(bench: Bench) -> None:
    elsewhere("OtherThread", bench.make().owned())


def search_leak(bench: Bench, act: Callable[[], Any], what: str) -> None:
    if not heap.is_counted():
        raise NotTried("the C library doesn't count its bytes")
    kept = heap.kept(act, with_maps=not bench.sums.direct)
    if kept:
        raise Broken("Leak", f"each {what} keeps {kept} after its release")


def try_leak(bench: Bench) -> None:
    def act() -> None:
        for each in bench.make().owned():
            release(each)
        bench.made.clear()

    def with_a_child_out() -> None:
        """Of one export the first child is moved out, of another one the last."""
        for last in (False, True):
            export = bench.make()
            moved_out = take_children(export.array, [export.array[4] - 1 if last else 0])
            for each in export.owned() + moved_out:
                release(each)
        bench.made.clear()

    first = bench.make()
    has_children = has_array(first) and first.array[4]
    first.release()
    once_more(bench).release()
    search_leak(bench, act, "export")
    if has_children:
        search_leak(bench, with_a_child_out, "pair of exports, of each of which a child was moved out,")


def try_capsule_taken(bench: Bench) -> None:
    export = bench.make()
    if not export.capsules:
        raise Inapplicable("there are no capsules")
    before = bench.both(export) if export.stream is None else {}
    export.capsules = ()
    gc.collect()
    heap.overwrite_freed()
    if export.stream is None:
        bench.same("CapsuleTaken", before, bench.both(export), "the capsule goes that it was moved out of")
    for each in export.owned():
        let_go("CapsuleTaken", each, "after its capsule is gone")


def try_capsule_left(bench: Bench) -> None:
    places, capsules = bench.source.left()
    counts, held = [0] * len(places), []
    form = ctypes.CFUNCTYPE(None, ctypes.c_void_p)

    def counting(i: int, original: int) -> Any:
        def act(address: int) -> None:
            counts[i] += 1
            room_at(places[i].form, address)[-2] = original
            form(original)(address)
        return form(act)

    live = [i for i, place in enumerate(places) if is_live(place)]
    for i in live:
        held.append(counting(i, places[i][-2]))
        places[i][-2] = ctypes.cast(held[-1], ctypes.c_void_p).value
    del capsules
    gc.collect()
    for i in live:
        if counts[i] != 1:
            name = places[i].form.__name__
            raise Broken("CapsuleLeft", f"the destructor of the capsule calls the release of {name} {counts[i]} times")


Trial = Callable[[Bench], Optional[None]]
OF_ARRAYS: Dict[str, Trial] = {
    "Moved": try_moved, "SchemaFirst": try_schema_first, "ArrayFirst": try_array_first, "TwoExports": try_two_exports,
    "ChildMoved": try_child_moved, "OtherThread": try_other_thread}
OF_CAPSULES: Dict[str, Trial] = {"CapsuleTaken": try_capsule_taken, "CapsuleLeft": try_capsule_left}
