"""For tests in Python: `from arrow_check import assert_lawful, assert_releases`."""
import os
import tempfile
from pathlib import Path
from typing import Any, Optional

from .checker import Checker
from .judge import Judge, Words
from .report import Report
from .source import Source


def judged(thing: Any, words: Words, checker: Optional[Checker]) -> None:
    """Fails with the lines of what isn't lawful in an export, or in what a word names, as the tool takes it."""
    report = Report(is_silent=True)
    source = Source(thing) if isinstance(thing, str) else Source(f"a {type(thing).__name__}", thing=thing)
    with tempfile.TemporaryDirectory(prefix="arrow-check-") as room:
        Judge(words, checker, report, Path(room), source).run()
    if report.status:
        raise AssertionError("\n".join(report.failures()) or f"status {report.status}")


def assert_lawful(thing: Any, check: Optional[str] = None, seconds: float = 60, most: int = 1 << 28) -> None:
    """Fails where the layout isn't lawful by arrowpipe: `check`, or the environment's ARROWPIPE."""
    words = Words()
    words.lifetimes, words.seconds, words.most = False, seconds, most
    judged(thing, words, Checker(check or os.environ.get("ARROWPIPE", "./arrowpipe"), seconds))


def assert_releases(thing: Any, seconds: float = 60, most: int = 1 << 28) -> None:
    """Fails where a rule of lifetimes is broken. It asks for no program."""
    words = Words()
    words.seconds, words.most = seconds, most
    judged(thing, words, None)
