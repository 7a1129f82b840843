"""Verdicts as lines, as JSON and as JUnit's XML."""
import json
import sys
import xml.etree.ElementTree as xml
from typing import Any, Dict, List, Tuple

from .layout import shown
from .verdict import STATUS

PASSED = ("lawful", "written")
SKIPPED = ("left out", "not tried", "refused")


def line(said: Dict[str, Any]) -> str:
    node = f" ({said['column']}: {said['format']})" if "format" in said else ""
    return f"{said['part']}: {said['fault']}{node}"


class Report:
    """Prints each verdict as it comes, and keeps them."""

    def __init__(self, as_json: bool = False, names: bool = False, is_silent: bool = False) -> None:
        self.as_json, self.names, self.is_silent = as_json, names, is_silent
        self.status = 0
        self.said: List[Tuple[str, Dict[str, Any]]] = []

    def add(self, producer: str, said: Dict[str, Any]) -> None:
        self.keep(producer, said)
        self.show(producer, said)

    def keep(self, producer: str, said: Dict[str, Any]) -> None:
        self.said.append((producer, said))
        self.status = max(self.status, STATUS[said["result"]])

    def show(self, producer: str, said: Dict[str, Any]) -> None:
        if self.is_silent:
            return
        if said["result"] == "unusable":
            print(f"arrow_tree: {said['fault']}", file=sys.stderr)
            return
        if self.as_json:
            print(json.dumps({**({"producer": producer} if self.names else {}), **said}), flush=True)
        else:
            begin = f"{shown(producer)}: " if self.names else ""
            print(f"{begin}{line(said)}", flush=True)
            if said.get("sentence"):
                print(f"    {said['sentence']}", flush=True)

    def failures(self) -> List[str]:
        """The lines of what isn't lawful."""
        return [f"{line(said)}\n    {said['sentence']}" if said.get("sentence") else line(said)
                for _, said in self.said if STATUS[said["result"]]]

    def junit(self) -> bytes:
        """A test suite for each producer, a test case for each verdict."""
        top = xml.Element("testsuites")
        for producer in dict.fromkeys(name for name, _ in self.said):
            cases = [said for name, said in self.said if name == producer]
            suite = xml.SubElement(top, "testsuite", {"name": shown(producer)})
            counts = {"tests": len(cases), "failures": 0, "errors": 0, "skipped": 0}
            for said in cases:
                result = said["result"]
                name = " ".join(filter(None, (said["part"], said.get("rule") if said["part"] == "lifetimes" else "")))
                case = xml.SubElement(suite, "testcase", {"classname": shown(producer), "name": name})
                if result not in PASSED:
                    kind = "skipped" if result in SKIPPED else "failure" if result == "unlawful" else "error"
                    xml.SubElement(case, kind, {"message": line(said)}).text = said.get("sentence", "")
                    counts[{"skipped": "skipped"}.get(kind, f"{kind}s")] += 1
            suite.attrib.update({key: str(number) for key, number in counts.items()})
        return bytes(xml.tostring(top, encoding="utf-8", xml_declaration=True)) + b"\n"
