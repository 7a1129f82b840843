"""Has producers checked, each in processes of its own, and says what comes of it."""
import os
import shutil
import sys
from functools import partial
from pathlib import Path
from typing import Any, Dict, List, Optional, Set

from . import trial
from .checker import Checker, RULES
from .layout import Kind, shown
from .report import Report
from .session import Limits, trials, work
from .source import Source
from .verdict import CAPSULES, LIFETIMES, sentence

ENDS = {"signal": "crashed", "exited": "exited", "timeout": "hung", "raised": "raised"}
# What tells nothing where another rule is broken.
NEEDS = {"Leak": {"CapsuleTaken", "CapsuleLeft", "ChildMoved"},
         **dict.fromkeys(("TwoExports", "ChunkOrder", "StreamFirst"), {"ChunkChanged"})}
ENOUGH = ("lawful", "written", "left out", "failed", "read")  # results of a layout with which the lifetimes are tried


class Words:
    """What is asked for, beside the producers."""
    check: Optional[str] = None
    arrowtree: Optional[str] = None
    out: Optional[Path] = None
    lifetimes = True
    most, seconds, direct = 1 << 28, 60.0, False


def kept(text: Path, folder: Path, name: str) -> str:
    """Where a text is kept: in a new file, whatever is there already."""
    for number in range(1, 1 << 20):
        path = folder / (f"{name}.tree" if number == 1 else f"{name}-{number}.tree")
        try:
            made = os.open(path, os.O_WRONLY | os.O_CREAT | os.O_EXCL | os.O_NOFOLLOW, 0o666)
        except FileExistsError:
            continue
        with open(made, "wb") as out, open(text, "rb") as given:
            shutil.copyfileobj(given, out, 1 << 20)
        return str(path)
    raise OSError(f"{folder} has too many files {name}")


class Judge:
    """Checks one producer."""

    def __init__(self, words: Any, checker: Optional[Checker], report: Report, room: Path, source: Source,
                 prefix: str = "") -> None:
        self.words, self.checker, self.report, self.source, self.prefix = words, checker, report, source, prefix
        self.limits = Limits(words.seconds, words.most, words.direct, checker is None, room)
        self.seen: Dict[str, Any] = {}
        self.results: List[str] = []
        self.queue: List[str] = ["layout"]
        self.at = "while it was loaded"
        self.current, self.tried = "", 1  # the release's mark is looked at with the layout
        self.broken: Set[str] = set()
        self.untried: Dict[str, List[str]] = {}

    def add(self, part: str, result: str, fault: str, **more: Any) -> None:
        self.results.append(result)
        self.report.add(self.source.words, {"part": part, "result": result, "fault": fault, **more})

    def run(self) -> None:
        act = partial(work, self.source, self.limits)
        while self.queue:
            self.current = ""
            outcome = trial.run(act, self.words.seconds + 5, self.heard, each=True, here=self.limits.direct)
            if self.current or outcome.kind != "ended" or outcome.folder:
                self.done(outcome)
        if self.seen:
            self.conclude()

    def heard(self, value: Dict[str, Any]) -> Any:
        if "next" in value:
            self.current = self.queue.pop(0) if self.queue else ""
            while NEEDS.get(self.current, set()) & self.broken:
                self.untried.setdefault("it comes after what is broken", []).append(self.current)
                self.current = self.queue.pop(0) if self.queue else ""
            return [self.current, self.seen] if self.current else None
        if "part" in value:
            return self.part(value)
        if "done" in value:
            self.done(trial.Outcome(**value["done"]) if value["done"] else None)
        self.seen, self.at = value.get("seen", self.seen), value.get("at", self.at)
        if "unusable" in value:
            self.queue = []
            self.current = ""
            self.add("producer", "unusable", shown(value["unusable"], 300))
        elif "broken" in value:
            self.rule(**value["broken"])
        elif "untried" in value:
            self.untried.setdefault(value["untried"], []).append(self.current)
        self.tried -= "untried" in value or "inapplicable" in value
        return None

    def rule(self, rule: str, what: str, path: Optional[str] = None) -> None:
        """A rule of lifetimes that is broken."""
        known = LIFETIMES.get(rule) or CAPSULES[rule]
        self.broken.add(rule)
        at = f" at {path}" if path else ""
        part, said = ("producer", what) if self.current == "layout" else ("lifetimes", f"{rule}{at}: {what}")
        if rule == "ReleaseMark":
            part, said = "producer", f"the release of {what} leaves it unreleased"
        more = {"path": path} if path else {}
        self.add(part, "unlawful", said, rule=rule, sentence=f'{known.sentence} ("{known.section}").', **more)

    def done(self, outcome: Optional[trial.Outcome]) -> None:
        """What a trial, or the loading of the producer, has come to."""
        name, self.current = self.current, ""
        self.tried += name not in ("layout", "")
        if outcome and outcome.kind != "ended" and name in LIFETIMES:
            self.current = name
            self.rule(name, outcome.words)
            self.current = ""
            if outcome.kind == "timeout":
                self.queue = []
        elif outcome and outcome.kind != "ended":
            self.queue = []
            if outcome.trace:
                print(outcome.trace, end="", file=sys.stderr)
            self.add("producer", ENDS[outcome.kind], shown(outcome.words, 300), sentence=f"That was {self.at}.")
        elif outcome and outcome.folder:
            self.add("producer", "folder changed", f"it changes the folder to {shown(outcome.folder, 300)}")
        if name == "layout" and self.words.lifetimes and self.seen.get("ours") and set(self.results) <= set(ENOUGH):
            self.queue = list(trials(self.seen))

    def conclude(self) -> None:
        """The line on the lifetimes where none is broken."""
        if not self.words.lifetimes:
            return
        if not self.seen["ours"]:
            self.add("lifetimes", "not tried", "not tried: what is at an address stays its owner's")
        elif self.tried > 1 and not self.broken:
            self.add("lifetimes", "lawful", f"ok, {self.tried} rules")
        elif self.tried <= 1 and not self.untried:
            self.add("lifetimes", "not tried", "not tried: the layout comes first")
        for why, names in self.untried.items():
            self.add("lifetimes", "not tried", f"{', '.join(names)} not tried: {shown(why)}")

    def part(self, value: Dict[str, Any]) -> bool:
        """A part of the layout; whether the next ones are of use."""
        name, said = value["part"], dict(value)
        if "result" in value:
            self.add(said.pop("part"), said.pop("result"), said.pop("fault"), **said)
            return bool(name != "schema")
        text = Path(value["text"])
        is_of_use = self.checked(name, text, value["columns"]) if self.checker else self.written(name, text)
        text.unlink()
        return is_of_use

    def written(self, name: str, text: Path) -> bool:
        if self.words.out:
            self.add(name, "written", kept(text, self.words.out, self.prefix + name.replace(" ", "-")))
        self.results.append("read")
        return True

    def checked(self, name: str, text: Path, columns: List[Dict[str, Any]]) -> bool:
        """The columns whose types are left out, and then all but these, or the root where that is such a one."""
        assert self.checker
        root = [it for it in columns if it["path"] == "/"]
        broken = sum(not self.column(name, it, Path(it["text"]) if it["text"] else text) for it in columns)
        if root:
            return not broken
        said = self.checker.check(name, text)
        if said["result"] != "lawful" or not broken:
            self.keep(name, said, text)
        return bool(said["result"] == "lawful")

    def keep(self, name: str, said: Dict[str, Any], text: Path) -> None:
        """A verdict, and the text of what is refused, if texts are wanted."""
        if said["result"] != "lawful" and self.words.out:
            said["text"] = kept(text, self.words.out, self.prefix + name.replace(" ", "-"))
        self.add(name, **said)

    def column(self, name: str, column: Dict[str, Any], text: Path) -> bool:
        """Whether a column, or the root, of a type that is left out is taken by arrowtree."""
        assert self.checker
        path, command = column["path"], column["command"] if self.checker.arrowtree else ""
        said = {"result": "left out", "fault": f"tree {path}: schema: Format", "path": path, "rule": "Format",
                "column": column["column"], "format": column["format"],
                "sentence": f"{column['what'].capitalize()} isn't checked here; the other columns are."}
        if not command:
            if not name.startswith("chunk"):
                self.keep(name, {**said, "sentence": said["sentence"] if path != "/" else "It isn't checked here."}, text)
            return path != "/"
        if name == "schema":
            return True
        is_lawful = self.checker.tree(command, text)
        if not is_lawful:
            found = {"path": path, "rule": RULES[command]}
            nodes = {path.rstrip("/"): Kind("", column["column"].split(".")[-1].encode(), 0, False)}
            self.keep(name, {**said, **found, "result": "unlawful", "fault": f"tree {path}: {RULES[command]}",
                             "sentence": sentence(nodes, {}, False, found)}, text)
        elif path == "/":
            self.add(name, "lawful", "ok")
        if text != self.limits.folder and column["text"]:
            text.unlink()
        return is_lawful
