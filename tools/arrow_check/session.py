"""What is done in a producer's own process: its layout is written as texts, its lifetimes are tried."""
import atexit
import ctypes
import gc
import os
import re
from pathlib import Path
from typing import Any, Dict, List, NamedTuple

from . import heap, trial
from .abi import ArrowArray, ArrowSchema, call, is_live, last_error, release, room
from .arrays import Bench, OF_ARRAYS, OF_CAPSULES, Trial, try_leak
from .checker import Unusable
from .layout import LEAST_CHUNK, Refused, Writer, left_out, shown
from .source import Broken, Export, Inapplicable, NotTried, Source
from .streams import OF_STREAMS, try_leak as try_streams_leak
from .verdict import column_of, sentence

COMMANDS = {"a union": "union", "a run-end encoded array": "flat"}  # of arrowtree
UNREADABLE = "{column} can't be read: a pointer or a count of it leads out of this process's memory, or to too much."
HELD: List[Any] = []  # capsules stay up to the end, but where their end is tried
OF_SCHEMAS = ("Moved", "TwoExports", "OtherThread")


class Limits(NamedTuple):
    seconds: float
    most: int
    direct: bool  # in this process, and memory is read plainly
    is_whole: bool  # texts have their types that are left out
    folder: Path


def trials(seen: Dict[str, Any]) -> Dict[str, Trial]:
    """By name those of a kind of export."""
    rules = dict(OF_STREAMS if seen["kind"] == "stream" else OF_ARRAYS)
    if seen["kind"] == "schema":
        rules = {name: OF_ARRAYS[name] for name in OF_SCHEMAS}
    return {**rules, **(OF_CAPSULES if seen["capsules"] else {}),
            "Leak": try_streams_leak if seen["kind"] == "stream" else try_leak}


class Layout:
    """Writes one export, part by part, and says where the texts are. All that is ours is released at the end."""

    def __init__(self, source: Source, limits: Limits, say: trial.Say) -> None:
        self.source, self.limits, self.say, self.number = source, limits, say, 0
        self.writer = Writer(limits.most, limits.direct)

    def write(self, schema: int, array: int, is_whole: bool) -> str:
        self.number += 1
        path = self.limits.folder / f"{self.number}.tree"
        with open(path, "xb") as out:
            self.writer.tree(schema, array, out, is_whole)
        return str(path)

    def part(self, name: str, schema: int, array: int) -> bool:
        """Whether what is behind this part is of use."""
        try:
            said: Dict[str, Any] = {"part": name, "text": self.write(schema, array, self.limits.is_whole)}
            if not self.limits.is_whole:
                said["columns"] = self.columns(name)
        except Refused as why:
            said = {"part": name, **self.explained(why)}
        return bool(self.say(said, waits=True))

    def explained(self, why: Refused) -> Dict[str, Any]:
        """What can't be written, with its column, and in words."""
        at = re.match(r"(?:tree )?(/\S*): ", str(why.said["fault"]))
        path = at[1].rstrip("/") if at else ""
        said = {"path": path or "/", **why.said, "column": column_of(self.writer.kinds, path),
                "format": shown(self.writer.kinds[path].format)}
        said["sentence"] = sentence(self.writer.kinds, {}, False, said) if "rule" in said else UNREADABLE.format(**said)
        return said if at else why.said

    def columns(self, name: str) -> List[Dict[str, Any]]:
        """The columns that are left out, and the root if it is; each with a text of its own where arrowtree takes such."""
        kinds, spared, made = dict(self.writer.kinds), dict(self.writer.spared), []
        root = kinds[""].format if "" in kinds else ""
        if left_out(root):
            made.append(self.column("", root, kinds, ""))
        for path, (format, schema, array) in spared.items():
            own = kinds[path].format if path in kinds else ""
            text = self.write(schema, array, True) if array and left_out(own) in COMMANDS else ""
            made.append(self.column(path, format if not left_out(own) else own, kinds, text))
        return made

    def column(self, path: str, format: str, kinds: Any, text: str) -> Dict[str, Any]:
        what, below = left_out(format), self.writer.kinds if text or not path else {}
        only = not any(left_out(kind.format) for each, kind in below.items() if each)
        return {"path": path or "/", "column": column_of(kinds, path), "format": f"{shown(format)}, {what}", "text": text,
                "what": what, "command": COMMANDS.get(what, "") if only and (text or not path) else ""}

    def ask(self, stream: Any, name: str, out: Any) -> bool:
        """Has a structure filled in; false where it is released."""
        if not is_live(stream) or not stream[("get_schema", "get_next").index(name)]:
            raise Refused("unlawful", f"the stream is released, or has no {name}")
        self.say({"at": f"in {name}"})
        code = call(stream, name, out)
        if code:
            self.say({"at": f"in get_last_error, behind a fault of {name}"})
            out[:] = [0] * len(out)  # there is nothing in it then
            place = last_error(stream)
            try:
                error = f"'{shown(self.writer.string(place, 'the last error'))}'" if place else "no text"
            except Refused as why:
                error = str(why.args[1])
            raise Refused("failed", f"{name} answers {code}: {error}")
        return is_live(out)

    def stream(self, export: Export, ours: List[Any]) -> str:
        """How it ended."""
        schema, array, number = room(ArrowSchema), room(ArrowArray), 0
        ours[:0] = [array, schema]
        try:
            self.ask(export.stream, "get_schema", schema)
            if not self.part("schema", ctypes.addressof(schema), 0):
                return "stopped"
            while self.ask(export.stream, "get_next", array):
                self.part(f"chunk {number}", ctypes.addressof(schema), ctypes.addressof(array))
                self.let_go(array)
                number, self.writer.left = number + 1, self.writer.left - LEAST_CHUNK
                if self.writer.left < 0:
                    raise Refused("not written", f"chunk {number}: more bytes are asked for than --most allows")
        except Refused as why:
            self.say({"part": "producer", **why.said}, waits=True)
            return "error"
        return "end"

    def let_go(self, owned: Any) -> None:
        self.say({"at": f"in the release of {owned.form.__name__}"})
        if not release(owned):
            raise Broken("ReleaseMark", owned.form.__name__)

    def run(self) -> None:
        self.say({"at": "while it was called"})
        export = self.source.make()
        HELD.append(export)
        self.say({"at": "while what it gave was read"})
        ours = export.owned() if export.is_ours else []
        kind = "stream" if export.stream is not None else "array"
        end = ""
        if export.stream is not None:
            end = self.stream(export, ours)
        else:
            kind = "array" if export.array is not None and (is_live(export.array) or not export.capsules) else "schema"
            self.part(kind, ctypes.addressof(export.schema), ctypes.addressof(export.array) if kind == "array" else 0)
        for each in ours:
            self.let_go(each)
        self.say({"seen": {"kind": kind, "end": end, "ours": export.is_ours, "capsules": bool(export.capsules)}})


def perform(name: str, source: Source, limits: Limits, seen: Dict[str, Any], say: trial.Say) -> None:
    """One trial, or the layout, which comes first."""
    try:
        heap.fill_what_is_freed()
        if name == "layout":
            Layout(source, limits, say).run()
        else:
            bench = Bench(source, limits.most, limits.direct, seen)
            HELD.append(bench)
            try:
                trials(seen)[name](bench)
            except NotTried:
                bench.close()
                raise
    except Broken as why:
        say({"broken": {"rule": why.rule, "what": why.what, "path": why.path}})
    except Inapplicable:
        say({"inapplicable": name})
    except NotTried as why:
        say({"untried": str(why)})
    except Unusable as why:
        say({"unusable": str(why)})
    gc.collect()


def work(source: Source, limits: Limits, say: trial.Say) -> None:
    """Does what its caller asks for, in a child each; in this process itself where the producer has threads."""
    if trial.inside:
        atexit._clear()  # what is to be done at the caller's end
    try:
        source.load()
    except (ImportError, AttributeError, OSError) as why:
        say({"unusable": f"{type(why).__name__}: {why}"})
        return
    gc.collect()
    gc.freeze()  # what is there now needn't be looked at, and so be copied, in each child
    while True:
        asked = say({"next": True}, waits=True)
        if not asked:
            break
        name, seen = asked

        def act(tell: trial.Say) -> None:
            perform(name, source, limits, seen, tell)

        if not limits.direct and len(os.listdir("/proc/self/task")) == 1:
            outcome = trial.run(act, limits.seconds, heard=lambda value: say(value, waits=True))
            say({"done": outcome._replace(said=[])._asdict()}, waits=True)
        else:
            act(say)
            say({"done": None}, waits=True)
            if not limits.direct:
                break
    if trial.inside:
        atexit._run_exitfuncs()
