#!/usr/bin/env python3
"""Tests what arrow_check says of lifetimes, over lifetimes.c and capsule_cases.py, and of what ends its process."""
import json
import os
import re
import subprocess
import sys
import tempfile
import time
import unittest
import xml.etree.ElementTree as xml
from pathlib import Path
from typing import Any, Dict, List, Tuple

sys.dont_write_bytecode = True
HERE = Path(__file__).resolve().parent
sys.path.insert(0, str(HERE))
from arrow_check import assert_releases, heap, trial  # noqa: E402
from arrow_check.verdict import CAPSULES, LIFETIMES  # noqa: E402

ROOM = tempfile.TemporaryDirectory(prefix="arrow-lifetimes-")
FOLDER = Path(ROOM.name)
LIBRARY, PEOPLE = FOLDER / "liblifetimes.so", FOLDER / "libpeople.so"
os.environ.update({"PRODUCER": str(LIBRARY), "PYTHONPATH": str(HERE)})
CC = ["cc", "-std=c11", "-Wall", "-Wextra", "-O1", "-g", "-shared", "-fPIC"]
SOURCE, CASES = (HERE / "lifetimes.c").read_text(), (HERE / "capsule_cases.py").read_text()
ARRAYS = re.findall(r"^(?:BROKEN|SPOILT)\(([A-Z]\w+)", SOURCE, re.MULTILINE)
STREAMS = ["ReleaseMark_stream", *re.findall(r"^(?:STREAMED|ON_NEXT|AT_END|IN_TURNS|FAILING)\((\w+_\w+)", SOURCE, re.MULTILINE)]
CAPSULE_CASES = re.findall(r"^(Capsule\w+_\w+) = ", CASES, re.MULTILINE)
LAWFUL = [f"{LIBRARY}:{it}" for it in (
    "export_int32", "export_float32_utf8", "export_many", "export_slice", "export_empty", "export_union", "export_list_view",
    "export_runs", "export_decimal64", "export_64_levels", "export_mixed")] + [f"{LIBRARY}:stream:{it}" for it in (
        "lawful_stream", "lawful_failure", "lawful_silence", "stream_chunks", "stream_breaks", "stream_null_items",
        "stream_no_chunk")] + [f"{PEOPLE}:people", f"{PEOPLE}:stream:people_stream"]
LAWFUL_OBJECTS = [f"capsule_cases:{it}" for it in ("array_capsules", "stream_capsule", "schema_capsule", "in_threads")]
# Of what ends the process: the status, the first line, and when it was.
ENDS = {"Ends_crash": (9, "it is ended by SIGABRT", "while it was called"),
        "Ends_crash_in_release": (9, r"it is ended by SIG(SEGV|ABRT)", "in the release of ArrowArray"),
        "Ends_exit": (10, "it ends the process with status 0", "while it was called"),
        "Ends_exit_in_release": (10, "it ends the process with status 0", "in the release of ArrowArray"),
        "Ends_hang": (7, "it takes too long", "while it was called"), "Ends_folder": (6, "it changes the folder to /", ""),
        "Ends_forged": (9, "it is ended by SIGABRT", "while it was called"),
        "stream:Ends_crash_in_next": (9, "it is ended by SIGABRT", "in get_next"),
        "stream:Ends_crash_in_error": (9, "it is ended by SIGABRT", "in get_last_error, behind a fault of get_next")}


def words(*given: Any) -> List[str]:
    return [sys.executable, str(HERE / "arrow_tree.py"), *map(str, given)]


def verdicts(*given: Any) -> Tuple[Dict[str, List[Any]], int]:
    """Of several producers what is said of each, by two runs side by side; the greater status."""
    producers = [it for it in given if ":" in str(it)]
    more = [it for it in given if it not in producers]
    halves = [half for half in (producers[::2], producers[1::2]) if half]
    runs = [subprocess.Popen(words(*half, *more, "--json"), stdout=-1, stderr=-1,
                             cwd=FOLDER, universal_newlines=True) for half in halves]
    said: Dict[str, List[Any]] = {}
    for half, run in zip(halves, runs):
        for line in run.communicate(timeout=600)[0].splitlines():
            verdict = json.loads(line)
            said.setdefault(verdict.get("producer", half[0]), []).append(verdict)
    return said, max(run.returncode for run in runs)


def broken(said: List[Any]) -> List[str]:
    return [it["rule"] for it in said if it["result"] == "unlawful"]


class Producers(unittest.TestCase):
    def test_each_that_is_broken_is_named_by_its_rule_alone(self) -> None:
        producers = {f"{LIBRARY}:{it}": it for it in ARRAYS if not it.startswith("Ends")}
        producers.update({f"{LIBRARY}:stream:{it}": it for it in STREAMS if it[0].isupper() and not it.startswith("Ends")})
        producers.update({f"capsule_cases:{it}": it for it in CAPSULE_CASES})
        said, status = verdicts(*producers, "--lifetimes", "--seconds", 20)
        self.assertEqual((status, set(said)), (8, set(producers)))
        for producer, name in producers.items():
            with self.subTest(name):
                self.assertEqual(broken(said[producer]), [name.split("_")[0]], said[producer])
                self.assertTrue(all(it["sentence"] for it in said[producer] if it["result"] == "unlawful"))
        self.assertEqual({name.split("_")[0] for name in producers.values()}, {*LIFETIMES, *CAPSULES})
        self.assertGreaterEqual(len(producers), 40)

    def test_what_is_lawful_passes(self) -> None:
        said, status = verdicts(*LAWFUL, *LAWFUL_OBJECTS, "--lifetimes")
        self.assertEqual((status, set(said)), (3, {*LAWFUL, *LAWFUL_OBJECTS}))  # of streams that fail, as they may
        for producer, all_said in said.items():
            with self.subTest(producer):
                last = all_said[-1]
                self.assertEqual((broken(all_said), last["part"], last["result"]), ([], "lifetimes", "lawful"), all_said)
                self.assertGreaterEqual(int(re.sub(r"\D", "", last["fault"])), 5)

    def test_what_is_lawful_passes_under_address_sanitizer_with_leaks(self) -> None:
        asan = subprocess.run(["cc", "-print-file-name=libasan.so"], stdout=-1, universal_newlines=True).stdout.strip()
        if not os.path.isabs(asan):
            self.skipTest("the compiler has no AddressSanitizer")
        room = FOLDER / "asan"
        room.mkdir()
        build(room, "-fsanitize=address")
        environment = {**os.environ, "PYTHONMALLOC": "malloc", "ASAN_OPTIONS": "detect_leaks=1", "LD_PRELOAD": asan}
        lawful = [it.replace(str(FOLDER), str(room)) for it in LAWFUL]
        broken_ones = [f"{room}/liblifetimes.so:{it}" for it in ("Leak_buffer", "SchemaFirst_data", "bad_short_buffer")]
        runs = [subprocess.Popen(words(*it, "--lifetimes", "--direct"), stdout=-1, stderr=-1, cwd=FOLDER, env=environment,
                                 universal_newlines=True) for it in [lawful, *[[each] for each in broken_ones]]]
        (_, err), *others = [run.communicate(timeout=600) for run in runs]
        self.assertEqual((err, runs[0].returncode), ("", 3))
        for (_, err), said in zip(others, ("detected memory leaks", "heap-use-after-free", "heap-buffer-overflow")):
            self.assertIn(said, err)

    def test_what_ends_the_process_has_a_status_of_its_own(self) -> None:
        for name, (status, line, when) in ENDS.items():
            with self.subTest(name):
                ran = subprocess.run(words(f"{LIBRARY}:{name}", "--lifetimes", "--seconds", 1), stdout=-1, stderr=-1,
                                     universal_newlines=True, cwd=FOLDER)
                self.assertEqual(ran.returncode, status)
                self.assertNotIn("array: ok", ran.stdout)
                self.assertRegex(ran.stdout, f"(?m)^producer: {line}\n" + (f"    That was {when}.\n$" if when else ""))
        self.assertEqual(sum("Ends_" in it for it in ARRAYS + STREAMS), len(ENDS) + 1)

    def test_what_a_producer_leaves_running_ends(self) -> None:
        began = time.monotonic()
        ran = subprocess.run(words(f"{LIBRARY}:Ends_child", "--lifetimes"), stdout=-1, stderr=-1, timeout=100)
        self.assertEqual((ran.returncode, ran.stdout), (0, b"lifetimes: ok, 8 rules\n"))
        self.assertLess(time.monotonic() - began, 60)  # its standard output was this test's pipe

    def test_where_there_is_one_export_it_is_said(self) -> None:
        said, status = verdicts("capsule_cases:one_shot", "capsule_cases:array_addresses", "--lifetimes")
        self.assertEqual(status, 0)
        self.assertEqual([it["fault"] for it in said["capsule_cases:one_shot"]], [
            "ok, 12 rules", "TwoExports, Leak not tried: there is no second export: ValueError: it has been read"])
        self.assertEqual([it["fault"] for it in said["capsule_cases:array_addresses"]],
                         ["not tried: what is at an address stays its owner's"])

    def test_a_module_with_threads_has_a_process_for_each_rule(self) -> None:
        ran = subprocess.run(words("capsule_cases:in_threads", "--lifetimes"), stdout=-1, stderr=-1,
                             env={**os.environ, "THREADS": "1"}, universal_newlines=True)
        self.assertEqual((ran.stdout, ran.returncode), ("lifetimes: ok, 10 rules\n", 0))

    def test_producers_that_share_a_static_are_judged_alone(self) -> None:
        given = [f"{LIBRARY}:{it}" for it in ("TwoExports_written", "TwoExports_cleared", "TwoExports_written")]
        ran = subprocess.run(words(*given, "--lifetimes", "--json"), stdout=-1, universal_newlines=True)
        first, other, again = map(json.loads, ran.stdout.splitlines())  # both functions hand out the same memory
        self.assertEqual((first, broken([first, other])), (again, ["TwoExports"] * 2))
        self.assertEqual([it["producer"] for it in (first, other, again)], given)

    def test_several_producers_have_a_report(self) -> None:
        given = [f"{LIBRARY}:{it}" for it in ("export_int32", "Leak_array", "Ends_exit")]
        ran = subprocess.run(words(*given, "--lifetimes", "--junit", "report.xml"), stdout=-1, cwd=FOLDER,
                             universal_newlines=True)
        self.assertEqual(ran.returncode, 10)
        self.assertEqual([line.split(": ")[0] for line in ran.stdout.splitlines() if line[0] != " "], given)
        suites = xml.parse(FOLDER / "report.xml").getroot()
        self.assertEqual([(it.get("name"), it.get("tests"), it.get("failures"), it.get("errors")) for it in suites],
                         [(given[0], "1", "0", "0"), (given[1], "1", "1", "0"), (given[2], "1", "0", "1")])
        self.assertEqual(suites[1][0].get("name"), "lifetimes Leak")


class Helpers(unittest.TestCase):
    def test_a_test_fails_with_the_line(self) -> None:
        import capsule_cases
        assert_releases(capsule_cases.array_capsules)
        assert_releases(f"{LIBRARY}:stream:lawful_stream")
        for thing, said in ((capsule_cases.CapsuleLeft_none, "CapsuleLeft"), (f"{LIBRARY}:Leak_array", "Leak: each export"),
                            (object(), "is none of these")):
            with self.assertRaisesRegex(AssertionError, said):
                assert_releases(thing)


class Trials(unittest.TestCase):
    def test_a_child_may_have_children(self) -> None:
        def outer(say: trial.Say) -> None:
            say(trial.run(lambda tell: os.abort(), 5).words)
            say(trial.run(lambda tell: time.sleep(60), 0.1).words)
            say(trial.run(lambda tell: tell(tell(1, waits=True)), 5, heard=lambda it: it + 1).said)

        self.assertEqual(trial.run(outer, 30).said, ["it is ended by SIGABRT", "it takes too long", [1, 2]])

    def test_blocks_that_the_c_library_keeps_back_are_not_counted(self) -> None:
        def act(say: trial.Say) -> None:
            say(heap.taken(False)["byte"])
            blocks = [heap.C.malloc(1000) for _ in range(heap.OF_A_SIZE)]
            say(heap.taken(False)["byte"])
            for block in blocks:
                heap.C.free(block)
            say(heap.taken(False)["byte"])

        before, meanwhile, after = trial.run(act, 60).said
        self.assertGreaterEqual(meanwhile - before, 1000 * heap.OF_A_SIZE)
        self.assertLess(abs(after - before), 1000)

    def test_closed_descriptors_are_no_end(self) -> None:
        def act(say: trial.Say) -> None:
            os.closerange(3, 100)
            time.sleep(60)

        self.assertEqual(trial.run(act, 0.5).kind, "timeout")


def build(folder: Path, *more: str) -> None:
    runs = [subprocess.Popen([*CC, *more, str(source), "-o", str(folder / library.name)]) for source, library in (
        (HERE / "lifetimes.c", LIBRARY), (HERE.parent / "examples/people.c", PEOPLE))]
    assert not any([run.wait() for run in runs])


def main() -> int:
    build(FOLDER)
    suite = unittest.defaultTestLoader.loadTestsFromModule(sys.modules[__name__])
    with open(os.devnull, "w") as nothing:
        result = unittest.TextTestRunner(verbosity=0, stream=nothing).run(suite)
    for test, trace in result.failures + result.errors:
        print(f"lifetimes: {test}\n{trace}")
    failed = len(result.failures) + len(result.errors)
    cases = len([it for it in ARRAYS + STREAMS if it[0].isupper()]) + len(CAPSULE_CASES)
    print(f"lifetimes: {result.testsRun - len(result.skipped)} tests ran, {failed} failures, {len(result.skipped)} skipped; "
          f"{cases} broken producers, {len(LAWFUL) + len(LAWFUL_OBJECTS)} lawful ones")
    return 1 if failed or not result.testsRun else 0


if __name__ == "__main__":
    sys.exit(main())
