"""Tries a consumer with each lawful export, in a process of its own, and tells which rule of lifetimes it breaks."""
import gc
import os
import re
import tempfile
from typing import Any, Dict, Iterator, List, NamedTuple, Optional, Sequence

from . import answers, trial
from .checker import Checker, Unusable
from .exports import ARRAYS, STREAMS
from .handed import Answer, consumer
from .layout import shown
from .lent import Lender
from .record import LIBC, Record
from .report import Report
from .verdict import Rule

RULES = {  # what is said of the thing that a rule is broken with, and the section of the standard
    "ReleasedTwice": Rule("is released once more after its release", "Release callback semantics"),
    "NeverReleased": Rule("is still live when the consumer has returned", "Release callback semantics"),
    "ReleasedChild": Rule("is released by the consumer, though it still is its parent's, who releases it",
                          "Release callback semantics"),
    "SourceNotReleased": Rule("was copied and the copy released, but what it was copied from isn't marked released",
                              "Moving an array"),
    "ReadReleased": Rule("is used after its release", "Release callback semantics"),
    "ReadBeyond": Rule("is used behind its end", "Data type description"),
    "WroteData": Rule("is written to", "Mutability"),
    "ChangedMember": Rule("isn't at its release what it was when it was handed over", "Moving an array"),
    "ReadPastError": Rule("is asked for more after its error", "Error codes"),
    "LostError": Rule("failed, and the consumer says that all is well", "Error codes"),
    "ReadPastEnd": Rule("is used, though it is marked released", "ArrowArrayStream.get_next"),
    "ReadOldError": Rule("is used after the next call", "ArrowArrayStream.get_last_error"),
    "AskedNoError": Rule("is asked for its last error, though the last call didn't fail",
                         "ArrowArrayStream.get_last_error"),
    "CalledReleased": Rule("is asked for something after its release", "ArrowArrayStream.get_next"),
    "OtherValues": Rule("has other values than what was given", "Data type description"),
    "Leak": Rule("has lost memory; LeakSanitizer tells where it came from", "Memory management"),
    "UnlawfulAnswer": Rule("isn't lawful itself", "Structure definitions"),
}
# How a process ends that doesn't return from the consumer, as results.
LEAK = rb"\w+ leak of .*\n    #0 .*\n(    #1 .*\n)?(?:    #.*\n)*"  # with the frame that called malloc
OF_PYTHON = rb"in _?Py|/(?:lib)?python| (?:Objects|Modules|Python|Parser)/"  # such a frame
ENDS = {"signal": "crashed", "timeout": "hung", "exited": "exited"}


class Words(NamedTuple):
    """How a consumer is tried."""
    consumer: str  # MODULE:CALLABLE or LIBRARY.so:FUNCTION
    stream: bool = False
    answers: bool = False
    seconds: float = 10
    check: str = ""  # the arrowpipe and the arrowtree that its answers are judged by
    rows: str = ""
    only: Sequence[str] = ()  # names of exports


def lost() -> List[bytes]:
    """What LeakSanitizer, where it runs, says of memory that nobody can reach, but for that which Python allocated."""
    look = getattr(LIBC, "__lsan_do_recoverable_leak_check", None)
    if look is None:
        return []
    with tempfile.TemporaryFile() as said:
        kept = os.dup(2)
        os.dup2(said.fileno(), 2)
        look()
        os.dup2(kept, 2)
        said.seek(0)
        text = said.read()
    return [each[0] for each in re.finditer(LEAK, text) if not re.search(OF_PYTHON, each[1])]


def take(words: Words, given: Any, record: Record, say: trial.Say) -> None:
    """Hand an export over, in a child process. What is said is why it was refused, and what was answered."""
    gc.freeze()  # what is here already needn't be searched at the end
    record.watch()
    lender = Lender(record)
    try:
        called = consumer(words.consumer)
    except (ImportError, AttributeError, OSError) as why:
        return say({"unusable": f"{type(why).__name__}: {why}"})
    answer = called(lender, given, words.answers)
    failed, is_answered = any(held.failed for held in lender.roots), answer.export is not None
    say({"refused": answer.refused, "failed": failed})
    if answer.export:
        say(answers.read(answer.export))
    answer = Answer(answer.refused)
    gc.collect()
    for held in list(lender.roots):
        if held.stream and failed and not answer.refused and not is_answered:
            lender.note("LostError", held)
        lender.judge(held, bool(answer.refused))
    found = lost()
    if found:
        os.write(2, b"".join(found))
        record.note(rule="Leak", what="the consumer", detail=found[-1].decode().split("\n")[0])


def broken(outcome: trial.Outcome, record: Record) -> Iterator[Dict[str, Any]]:
    """The rules that were broken, in the order in which that was seen, and how the process ended."""
    yield from record.notes()
    fault = record.fault() if outcome.kind == "signal" else None
    if fault and "rule" in fault:
        yield fault
    elif outcome.kind in ENDS:
        where = f", at address {fault['address']}" if fault else ""
        yield {"result": ENDS[outcome.kind], "fault": f"{outcome.words}{where}"}
    elif outcome.folder:
        yield {"result": "folder changed", "fault": f"it changes the folder to {shown(outcome.folder)}"}


def judged(words: Words, given: Any, outcome: trial.Outcome, record: Record) -> Dict[str, Any]:
    """The verdict on what became of one export. The first rule that was broken is told."""
    said, answer = [*outcome.said, None, None][:2]
    found = list(broken(outcome, record))
    if not found and outcome.kind == "raised":
        return {"result": "raised", "fault": shown(outcome.why)}
    if not found and answer and words.rows:
        found = list(answers.differences(given, answer, words.rows, words.check))
    if not found and said["refused"] and not said["failed"]:  # a stream's own error is handed on
        return {"result": "refused", "fault": shown(said["refused"])}
    if not found:
        return {"result": "lawful", "fault": "ok"}
    first = found[0]
    if "rule" not in first:
        return first
    rule, detail = RULES[first["rule"]], first.get("detail") and f": {shown(first['detail'])}"
    sentence = f"{first['what']} {rule.sentence}{detail or ''}"
    return {"result": "unlawful", "fault": f"{first['rule']}: {first['what']}", "rule": first["rule"],
            "sentence": f"{sentence[:1].upper()}{sentence[1:]} (\"{rule.section}\").", "section": rule.section,
            "rules": sorted({each["rule"] for each in found if "rule" in each})}


def verdicts(words: Words) -> Iterator[Dict[str, Any]]:
    """What is to be said of each export that is handed to the consumer."""
    record = Record()
    table: Dict[str, Any] = STREAMS if words.stream else ARRAYS
    for name in words.only or table:
        if name not in table:
            raise Unusable(f"there is no export of the name {shown(name)}")
        record.begin()
        outcome = trial.run(lambda say: take(words, table[name], record, say), words.seconds)
        if outcome.said and "unusable" in outcome.said[0]:
            raise Unusable(shown(outcome.said[0]["unusable"]))
        yield {"part": name, **judged(words, table[name], outcome, record)}


def exports(count: int, more: str = "") -> str:
    return f"{count} {more}export{'s' * (count != 1)}"


def try_consumer(given: Any, name: str, checker: Optional[Checker], report: Report) -> None:
    """Has a consumer tried. Each export's verdict is kept; what is the same with several is told once, but as JSON."""
    if given.answers and not (checker and checker.arrowtree):
        raise Unusable("to compare answers an arrowtree is wanted: beside arrowpipe, or by --arrowtree")
    words = Words(name, given.stream or ":stream:" in name, given.answers, given.seconds,
                  checker.program if checker else "", checker.arrowtree if checker else "", given.only)
    told: Dict[str, List[Dict[str, Any]]] = {}
    for said in verdicts(words):
        report.keep(name, said)
        told.setdefault(said.get("rule", said["result"]), []).append(said)
        if report.as_json:
            report.show(name, said)
    lawful, refused = (len(told.pop(each, ())) for each in ("lawful", "refused"))
    for each in told.values() if not report.as_json else ():
        also = f" and {exports(len(each) - 1, 'more ')}" if len(each) > 1 else ""
        report.show(name, {**each[0], "part": each[0]["part"] + also})
    if not told:
        fault = f"ok, {exports(lawful)} taken" + (f", {refused} refused" if refused else "")
        report.add(name, {"part": "consumer", "result": "lawful" if lawful else "left out",
                          "fault": fault if lawful else f"none of {exports(refused)} is taken"})
