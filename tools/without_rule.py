#!/usr/bin/env python3
"""Takes each rule's check out of arrow_check, by itself, and has the producers and consumers tried that break it: none may be
named any more. So a test that names them has seen the check fail. It is no part of the gate.

    tools/without_rule.py [--program PROGRAM] [RULE ..]      PROGRAM: the arrowpipe, for the rules of what consumers answer
"""
import argparse
import contextlib
import io
import json
import os
import subprocess
import sys
from pathlib import Path
from typing import Any, Iterator, List, Tuple

import test_consumers
import test_lifetimes as cases
from arrow_check import abi, answers, arrays, cli, consumer, judge, session, source, streams
from arrow_check.record import Record
from arrow_check.verdict import CAPSULES, LIFETIMES

SANITIZED = """
import sys
sys.path.insert(0, {here!r})
from arrow_check import consumer
if {without}:
    consumer.lost = list
print(*[it["fault"] for it in consumer.verdicts(consumer.Words({words!r}, only=["a table"], seconds=300))])
"""


@contextlib.contextmanager
def without(rule: str) -> Any:
    """Each table of trials without the rule, or the function without its look."""
    tables = [arrays.OF_ARRAYS, arrays.OF_CAPSULES, streams.OF_STREAMS]
    taken = [(table, dict(table)) for table in tables]
    functions = [(session, "release", session.release), (source, "release", source.release), (session, "trials", session.trials)]
    opened = source.opened
    for table in tables:
        table.pop(rule, None)
    if rule == "ReleaseMark":
        session.release = source.release = lambda owned: abi.release(owned) or True  # type: ignore
    if rule == "Leak":
        before = session.trials
        session.trials = lambda seen: {key: act for key, act in before(seen).items() if key != "Leak"}  # type: ignore
        judge.trials = session.trials  # type: ignore
    if rule in CAPSULES:
        def careless(given: Any, method: str) -> Any:
            try:
                return opened(given, method)
            except source.Broken as why:
                raise source.Unusable(str(why))
        source.opened = careless  # type: ignore
    try:
        yield
    finally:
        for table, was in taken:
            table.clear()
            table.update(was)
        for module, name, was in functions:
            setattr(module, name, was)
        judge.trials = session.trials  # type: ignore
        source.opened = opened  # type: ignore


def named(rule: str) -> List[str]:
    """The producers that break a rule, of those which the tool names by it."""
    producers = [f"{cases.LIBRARY}:{it}" for it in cases.ARRAYS] + [f"{cases.LIBRARY}:stream:{it}" for it in cases.STREAMS]
    producers += [f"capsule_cases:{it}" for it in cases.CAPSULE_CASES]
    producers = [it for it in producers if it.rpartition(":")[2].startswith(f"{rule}_")]
    with contextlib.redirect_stdout(io.StringIO()) as printed, contextlib.redirect_stderr(io.StringIO()):
        cli.main([*producers, cases.LAWFUL[0], "--lifetimes", "--json", "--seconds", "300"])
    said = [json.loads(line) for line in printed.getvalue().splitlines()]
    return [it for it in producers if rule in [one.get("rule") for one in said if one["producer"] == it]]


@contextlib.contextmanager
def consumers_without(rule: str) -> Any:
    """What is noted, seen at a crash, or found in answers, without the rule."""
    note, fault, differences = Record.note, Record.fault, answers.differences

    def other_differences(*given: Any) -> Iterator[Any]:
        return (it for it in differences(*given) if it.get("rule") != rule)

    def other_fault(record: Record) -> Any:
        found = fault(record)
        return found if found and found.get("rule") != rule else None

    Record.note = lambda record, **said: None if said.get("rule") == rule else note(record, **said)  # type: ignore
    Record.fault, answers.differences = other_fault, other_differences  # type: ignore
    try:
        yield
    finally:
        Record.note, Record.fault, answers.differences = note, fault, differences  # type: ignore


def named_consumers(rule: str) -> List[str]:
    """The consumers that break a rule, of those which the tool names by it."""
    tests, told = test_consumers, []
    given = [(tests.words_for(name, *tests.FEW, *filter(None, [tests.ON.get(name)])), each)
             for name, each in tests.ARRAYS.items()]
    given += [(tests.words_for(name, *tests.BROKEN_STREAMS, stream=True), each) for name, each in tests.STREAMS.items()]
    given += [(consumer.Words(f"consumers:{name}", only=tests.FEW), each) for name, each in tests.OBJECTS.items()]
    if all(tests.PROGRAMS):
        programs = dict(zip(("check", "rows"), tests.PROGRAMS), answers=True)
        given += [(tests.words_for(name, "int32", "a table", **programs), each) for name, each in tests.ANSWERS.items()]
    for words, each in given:
        if each == rule and rule in tests.results(words._replace(seconds=300)):
            told.append(words.consumer)
    return told


def leaking_consumers(without: bool) -> List[str]:
    """That which loses memory, where LeakSanitizer names it."""
    library = cases.FOLDER / "libsanitized.so"
    subprocess.run(["cc", "-g", "-fsanitize=address", "-shared", "-fPIC", str(cases.HERE / "consumers.c"), "-o", str(library)],
                   check=True)
    runtime = subprocess.run(["cc", "-print-file-name=libasan.so"], stdout=-1, universal_newlines=True).stdout.strip()
    program = SANITIZED.format(here=str(cases.HERE), without=without, words=f"{library}:bad_leak")
    ran = subprocess.run([sys.executable, "-c", program], stdout=-1, stderr=subprocess.DEVNULL, universal_newlines=True, env={
        **os.environ, "LD_PRELOAD": runtime, "ASAN_OPTIONS": "leak_check_at_exit=0", "PYTHONMALLOC": "malloc"})
    return ["bad_leak"] * ran.stdout.startswith("Leak")


def counts(rule: str) -> Iterator[Tuple[str, int, int]]:
    """Of those that break a rule how many are named by it, with its check and without."""
    if rule in LIFETIMES or rule in CAPSULES:
        with_it = named(rule)
        with without(rule):
            yield "producers", len(with_it), len(named(rule))
    if rule == "Leak":
        yield "consumers", len(leaking_consumers(False)), len(leaking_consumers(True))
    elif rule in consumer.RULES:
        with_it = named_consumers(rule)
        with consumers_without(rule):
            yield "consumers", len(with_it), len(named_consumers(rule))


def main() -> int:
    parser = argparse.ArgumentParser(description=__doc__, formatter_class=argparse.RawDescriptionHelpFormatter)
    parser.add_argument("rules", nargs="*", metavar="RULE")
    parser.add_argument("--program", type=Path)
    words = parser.parse_args()
    if words.program:
        test_consumers.PROGRAMS = str(words.program.resolve()), str(words.program.resolve().parent / "arrowtree")
    cases.build(cases.FOLDER)
    test_consumers.compiled()
    bad = 0
    for rule in words.rules or dict.fromkeys([*LIFETIMES, *CAPSULES, *consumer.RULES]):
        for what, with_it, without_it in counts(rule):
            bad += not with_it or without_it > 0
            print(f"{rule}: {with_it} {what} named, without its check {without_it}", flush=True)
    return 1 if bad else 0


if __name__ == "__main__":
    sys.exit(main())
