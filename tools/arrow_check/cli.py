"""Checks what is exported by the Arrow C Data Interface: its layout, and its lifetimes (docs/CHECK.md).

    arrow_tree.py mymodule:table --check ./arrowpipe          an object of the PyCapsule Interface, or a function of one
    arrow_tree.py ./libmine.so:people --check ./arrowpipe     void people(struct ArrowSchema *, struct ArrowArray *)
    arrow_tree.py ./libmine.so:stream:rows --out trees        void rows(struct ArrowArrayStream *)
    arrow_tree.py --consumer ./libmine.so:sum                 int sum(struct ArrowSchema *, struct ArrowArray *)
    arrow_tree.py --consumer mymodule:read --stream           a callable of one object of the PyCapsule Interface

Exit status, the greatest of all parts: 0 all is lawful, 10 it ended the process, 9 it crashed, 8 a part isn't lawful,
7 it took too long, 6 it changed the folder, 4 a type is left out, 3 what can't be written as a text or a stream that failed,
2 wrong words, 1 an exception of a module's. 130 and 143: interrupted, terminated.
"""
import argparse
import os
import signal
import sys
import tempfile
from pathlib import Path
from typing import Any, List, Optional

from .checker import Checker, Unusable
from .consumer import try_consumer
from .judge import Judge
from .report import Report
from .source import Source


class Stopped(BaseException):
    """A signal that ends all."""


def stop(number: int, frame: Any) -> None:
    for each in (signal.SIGINT, signal.SIGTERM):  # no second one cuts the end short
        signal.signal(each, signal.SIG_IGN)
    raise Stopped(number)


def parsed(given: Optional[List[str]] = None) -> Any:
    parser = argparse.ArgumentParser(prog="arrow_tree", description=__doc__,
                                     formatter_class=argparse.RawDescriptionHelpFormatter)
    parser.add_argument("producers", nargs="*", metavar="PRODUCER",
                        help="MODULE:OBJECT, LIBRARY.so:FUNCTION or LIBRARY.so:stream:FUNCTION")
    parser.add_argument("--consumer", action="append", default=[], metavar="CONSUMER",
                        help="MODULE:CALLABLE or LIBRARY.so:FUNCTION, which is handed lawful exports")
    parser.add_argument("--answers", action="store_true", help="the consumer answers with an export, which is compared")
    parser.add_argument("--only", action="append", default=[], metavar="EXPORT", help="hand over the export of that name")
    parser.add_argument("--check", metavar="PROGRAM", help="the arrowpipe that checks each part")
    parser.add_argument("--arrowtree", metavar="PROGRAM", help="checks unions and run ends; that beside arrowpipe if none")
    parser.add_argument("--out", type=Path, metavar="FOLDER", help="keep texts there; with --check the refused ones")
    parser.add_argument("--lifetimes", action="store_true", help="try the rules of lifetimes, without --check these alone")
    parser.add_argument("--no-lifetimes", action="store_true", help="check layouts alone")
    parser.add_argument("--json", action="store_true", help="print an object of JSON a verdict")
    parser.add_argument("--junit", type=Path, metavar="FILE", help="write the verdicts there, as JUnit's XML")
    parser.add_argument("--stream", action="store_true", help="the libraries' functions fill in an ArrowArrayStream")
    parser.add_argument("--seconds", type=float, default=60.0, metavar="N", help="up to a producer's end (default 60)")
    parser.add_argument("--most", type=int, default=1 << 28, metavar="BYTES",
                        help="read in all, and at most twice as many are written (default 2^28)")
    parser.add_argument("--direct", action="store_true",
                        help="read memory plainly, in this process: for valgrind or AddressSanitizer")
    words = parser.parse_args(given)
    if bool(words.producers) == bool(words.consumer) or not all(":" in it for it in words.producers + words.consumer):
        parser.error("a producer is wanted: MODULE:OBJECT or LIBRARY.so:FUNCTION; or --consumer with such a one")
    if words.answers and not words.check:
        parser.error("--answers wants --check")
    if not (words.check or words.out or words.lifetimes or words.consumer):
        parser.error("--check, --out or --lifetimes is wanted")
    if words.most <= 0 or not words.seconds > 0:
        parser.error("--most and --seconds are above 0")
    words.lifetimes = (bool(words.check) or words.lifetimes) and not words.no_lifetimes
    return words


def ready(words: Any) -> Optional[Checker]:
    """The folder of texts, and the checker, which is tried."""
    if words.out:
        if words.out.is_symlink():
            raise Unusable(f"{words.out} is a link")
        words.out.mkdir(parents=True, exist_ok=True)
        words.out = words.out.resolve() if words.out.is_absolute() else words.out
    return Checker(words.check, words.seconds, words.arrowtree) if words.check else None


def file_names(producers: List[str]) -> List[str]:
    """What the names of a producer's texts begin with."""
    names = [it.rpartition(":")[2] for it in producers]
    return [f"{name}-" if len(names) > 1 else "" for name in names]


def check(words: Any) -> int:
    if sys.stdout is None:
        raise OSError("standard output is closed")
    checker = ready(words)
    report = Report(words.json, len(words.producers + words.consumer) > 1)
    for name in words.consumer:
        try_consumer(words, name, checker, report)
    with tempfile.TemporaryDirectory(prefix="arrow-check-") as room:
        for name, prefix in zip(words.producers, file_names(words.producers)):
            Judge(words, checker, report, Path(room), Source(name, words.stream), prefix).run()
    if words.junit:
        words.junit.write_bytes(report.junit())
    return report.status


def main(given: Optional[List[str]] = None) -> int:
    words = parsed(given)
    before = [(each, signal.signal(each, stop)) for each in (signal.SIGINT, signal.SIGTERM)]
    try:
        return check(words)
    except Stopped as why:
        return 128 + int(why.args[0])
    except (Unusable, OSError, UnicodeEncodeError) as why:
        if sys.stdout is not None and not isinstance(why, Unusable):
            os.dup2(os.open(os.devnull, os.O_WRONLY), 1)  # what is buffered can't be written either
        if sys.stderr is not None:
            name = "" if isinstance(why, Unusable) else f"{type(why).__name__}: "
            print(f"arrow_tree: {name}{why}", file=sys.stderr)
        return 2
    finally:
        for each, handler in before:
            signal.signal(each, handler)
