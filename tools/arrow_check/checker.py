"""The programs that check a text: arrowpipe, and for unions and run ends arrowtree. Neither is believed untried."""
import os
import re
import subprocess
from pathlib import Path
from typing import Any, Dict, List, Optional

from .layout import left_out
from .verdict import FAULT, Tree, column_of, sentence

# Texts, each with a fault or none, of which a checker must say so before it is believed.
LAWFUL = "tree 1\nS =i ~ 2 0 0 ~\nA 2 1 0 2 0 0\nB =05\nB =0100000002000000\n"
KNOWN = [(LAWFUL, 0, "ok\n/ =i 2 1\n", ""),
         (LAWFUL.replace("A 2 1", "A 2 0"), 8, "", "arrowpipe: tree /: NullCount at 0: 0, 1\n")]
UNION = ("tree 1\nS =+us:5 ~ 0 1 0 ~\nS =i ~ 2 0 0 ~\nA 1 0 0 1 1 0\nB =05\nA 1 0 0 2 0 0\nB ~\nB =07000000\n")
KNOWN_UNION = [(UNION, 0, "ok\n5 7\n", ""), (UNION.replace("B =05", "B =06"), 8, "", "arrowtree: status 8\n")]
RULES = {"union": "Union", "flat": "RunEnds"}


class Unusable(Exception):
    """What was asked for can't be used, and why."""


def built(program: str) -> str:
    """The program itself, where a checkout's launcher is named: that would build it, which takes minutes."""
    path, name = Path(os.path.realpath(program)), os.path.basename(program)
    try:
        with open(path, "rb") as file:
            is_script = file.read(2) == b"#!"
    except OSError as why:
        raise Unusable(f"{program}: {why.strerror}")
    made = path.parent / "out" / name
    if is_script and os.access(made, os.X_OK) and made.stat().st_size:
        return str(made)
    if is_script and (path.parent / "crates.txt").exists():
        raise Unusable(f"{program} isn't built in this checkout: make {name} builds it")
    return os.path.abspath(program)


class Checker:
    """Has texts checked. `words` are the program and the option `--check`, or arrowtree's and a command."""

    def __init__(self, program: str, seconds: float, arrowtree: Optional[str] = None) -> None:
        self.name, self.seconds, self.program = program, seconds, built(program)
        self.try_known([self.program, "--check"], KNOWN, program)
        self.arrowtree = ""
        beside = arrowtree or os.path.join(os.path.dirname(os.path.abspath(program)), "arrowtree")
        if arrowtree or os.path.exists(beside):
            try:
                self.arrowtree = built(beside)
                self.try_known([self.arrowtree, "union"], KNOWN_UNION, beside)
            except Unusable:
                if arrowtree:
                    raise
                self.arrowtree = ""

    def try_known(self, words: List[str], known: Any, name: str) -> None:
        for text, status, out, err in known:
            try:
                ran = subprocess.run(words, input=text.encode(), stdout=-1, stderr=-1, timeout=self.seconds)
            except (OSError, subprocess.TimeoutExpired) as why:
                raise Unusable(f"{name} can't be run: {why}")
            if (ran.returncode, ran.stdout, ran.stderr) != (status, out.encode(), err.encode()):
                said = (ran.stderr or ran.stdout).decode(errors="replace").strip().split("\n")[-1]
                raise Unusable(f"{name} is no such checker: of a known text it answers {ran.returncode}, {ascii(said)}")

    def run(self, words: List[str], text: Path) -> Any:
        with open(text, "rb") as given:
            return subprocess.run(words, stdin=given, stdout=-1, stderr=-1, timeout=max(60, self.seconds))

    def check(self, part: str, text: Path) -> Dict[str, Any]:
        """What `arrowpipe --check` says of a text."""
        try:
            ran = self.run([self.program, "--check"], text)
        except subprocess.TimeoutExpired:
            return {"result": "not written", "fault": f"{self.name} takes too long"}
        said = re.findall("^arrowpipe: (.*)$", ran.stderr.decode(errors="replace"), re.MULTILINE)
        fault = (said or [f"{self.name} ends with status {ran.returncode}"])[-1] if ran.returncode else "ok"
        nulls = re.match(rb"ok\n/ =\+s \d+ ([1-9]\d*)\n", ran.stdout)
        if part.endswith("schema") and fault.startswith("tree /: Released"):  # the array in place of none
            fault = "ok"
        elif not ran.returncode and not ran.stdout.startswith(b"ok\n"):
            fault = f"{self.name} ends without a report"
        elif part.startswith("chunk") and nulls:  # no row of a table is null
            fault = f"tree /: TopNulls at 0: {int(nulls[1])}, 0"
        found = FAULT.fullmatch(fault)
        if not found:
            return {"result": "lawful" if fault == "ok" else "not written", "fault": fault}
        return self.explained(text, fault, found.groupdict(), found[2] is not None)

    def explained(self, text: Path, fault: str, found: Dict[str, Any], of_schema: bool) -> Dict[str, Any]:
        with open(text) as given:
            next(given)
            tree = Tree([line for line in given if line[0] == "S"])
        path = found["path"].rstrip("/")
        format = tree.nodes[path].format if path in tree.nodes else ""
        what = [it for it in [found["rule"] == "Format" and left_out(format)] if it]
        said = sentence(tree.nodes, tree.data, of_schema, found)
        return {"result": "left out" if what else "unlawful", "fault": fault, "column": column_of(tree.nodes, path),
                "format": ", ".join([ascii(format)[1:-1], *what]), **found,
                "sentence": f"{said[:1]}{said[1:]}" if not what else f"It is {what[0]}, which isn't taken here."}

    def tree(self, command: str, text: Path) -> bool:
        """Whether arrowtree takes a union or a run-end encoded array."""
        try:
            return bool(self.run([self.arrowtree, command], text).returncode == 0)
        except subprocess.TimeoutExpired:
            return False
