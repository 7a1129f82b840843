#!/usr/bin/env python3
"""Tests `arrow_tree.py --consumer` over the consumers of consumers.c and consumers.py, and arrow_tree.h over live exports. Prints
how many tests ran, and fails where one does.

    test_consumers.py [--quiet] [PROGRAM [TESTS ..]]     PROGRAM: the arrowpipe beside which an arrowtree is

Where no program is named the answers of consumers aren't compared."""
import argparse
import ctypes
import errno
import io
import json
import os
import re
import subprocess
import sys
import tempfile
import unittest
from pathlib import Path
from typing import Any, Dict, Iterator, List, Set, Tuple

sys.dont_write_bytecode = True
HERE = Path(__file__).resolve().parent
sys.path.insert(0, str(HERE))
from arrow_check import answers, exports  # noqa: E402
from arrow_check.abi import ArrowArray, ArrowSchema, release, room  # noqa: E402
from arrow_check.consumer import RULES, Words, verdicts  # noqa: E402
from arrow_check.layout import Refused, Writer  # noqa: E402
from arrow_check.lent import Lender  # noqa: E402
from arrow_check.record import Record  # noqa: E402

ROOM = tempfile.TemporaryDirectory(prefix="arrow-consumers-")
FOLDER = Path(ROOM.name)
PROGRAMS: Tuple[str, str] = ("", "")  # arrowpipe and arrowtree
COUNT = {"verdicts": 0}
# Exports on two of which each rule shows at least once, but for those of ON.
FEW = ("int32", "a table")
ON = {"bad_refusal": "a window", "bad_dictionary_released": "a dictionary", "bad_offset_of_nothing": "no rows, empty buffers"}
# The lawful consumers that take all exports; the others take some that are harder.
ALL = ("good_reader", "good_move", "good_children_backwards")
HARD = ("a window of a table", "a dictionary", "views over buffers", "lists in lists", "a dense union", "run ends", "metadata",
        "no columns, no rows")
BROKEN_STREAMS = ("many chunks", "a failure in mid-stream")
# Consumers of consumers.c that break one rule each, and of the others what their results are.
ARRAYS = {
    "bad_released_twice": "ReleasedTwice", "bad_copy_released_too": "ReleasedTwice", "bad_schema_twice": "ReleasedTwice",
    "bad_child_of_a_moved_parent": "ReleasedTwice", "bad_never": "NeverReleased", "bad_schema_never": "NeverReleased",
    "bad_left": "NeverReleased", "bad_child_kept": "NeverReleased", "bad_refusal": "NeverReleased",
    "bad_child_released": "ReleasedChild", "bad_all_children_released": "ReleasedChild",
    "bad_moved_parents_child": "ReleasedChild", "bad_dictionary_released": "ReleasedChild", "bad_child_type_released": "ReleasedChild",
    "bad_source": "SourceNotReleased", "bad_child_source": "SourceNotReleased", "bad_read_late": "ReadReleased",
    "bad_child_late": "ReadReleased", "bad_name_late": "ReadReleased", "bad_offset_of_nothing": "ReadBeyond",
    "bad_child_behind_the_last": "ReadBeyond", "bad_type_behind_the_last": "ReadBeyond",
    "bad_buffer_behind_the_last": "ReadBeyond", "bad_padding": "ReadBeyond", "bad_write": "WroteData", "bad_name_written": "WroteData",
    "bad_slice_in_place": "ChangedMember", "bad_children_dropped": "ChangedMember", "bad_private_data": "ChangedMember",
    "bad_flags": "ChangedMember", "bad_crash": "crashed", "bad_abort": "crashed", "bad_exit": "exited",
    "bad_folder": "folder changed"}
STREAMS = {
    "bad_stream_never": "NeverReleased", "bad_stream_twice": "ReleasedTwice", "bad_stream_source": "SourceNotReleased",
    "bad_chunk_never": "NeverReleased", "bad_stream_schema": "NeverReleased", "bad_chunk_at_a_fault": "NeverReleased",
    "bad_lost_error": "LostError", "bad_read_on": "ReadPastError", "bad_asked": "AskedNoError", "bad_old_text": "ReadOldError",
    "bad_called_late": "CalledReleased", "bad_end": "ReadPastEnd", "bad_end_released": "crashed",
    "bad_chunk_late": "ReadReleased"}
ANSWERS = {
    "bad_answer": "OtherValues", "bad_answer_window": "OtherValues", "bad_answer_nulls": "UnlawfulAnswer",
    "bad_answer_released": "UnlawfulAnswer", "bad_answer_unreleased": "UnlawfulAnswer", "bad_answer_too_late": "ReadReleased",
    "bad_answer_forgotten": "NeverReleased"}
# Of consumers.py the same, handed arrays.
OBJECTS = {
    "bad_never": "NeverReleased", "bad_held": "NeverReleased", "bad_copy": "ReleasedTwice", "bad_late": "ReadReleased",
    "bad_written": "WroteData", "bad_exit": "exited", "bad_end": "exited", "bad_folder": "folder changed",
    "bad_answer": "UnlawfulAnswer"}


def names(head: str, file: str) -> List[str]:
    """What a file defines behind such a head."""
    return re.findall(rf"^{head}(\w+)[,(]", (HERE / file).read_text(), re.MULTILINE)


def results(words: Words) -> Dict[str, Set[str]]:
    """By what came of it, rules or another result, the exports."""
    found: Dict[str, Set[str]] = {}
    for verdict in verdicts(words):
        COUNT["verdicts"] += 1
        for each in verdict.get("rules") or [verdict["result"]]:
            found.setdefault(each, set()).add(verdict["part"])
    return found


def words_for(name: str, *only: str, **more: Any) -> Words:
    return Words(f"{FOLDER}/libconsumers.so:{name}", only=only, seconds=60, **more)


class Consumers(unittest.TestCase):
    def is_broken(self, words: Words, rule: str) -> None:
        found = results(words)
        self.assertEqual(set(found) - {"lawful", "refused"}, {rule}, words.consumer)

    def test_each_lawful_consumer_of_arrays_passes_with_all_exports(self) -> None:
        for name in (it for it in names(r"CONSUMER\(", "consumers.c") if it.startswith("good_")):
            with self.subTest(name):
                only = () if name in ALL else HARD
                found = results(words_for(name, *only))
                self.assertEqual(len(found.pop("lawful")) + len(found.pop("refused", ())), len(only or exports.ARRAYS))
                self.assertEqual(found, {})
        self.assertGreater(len(exports.ARRAYS), 40)

    def test_each_lawful_consumer_of_streams_passes_with_all_exports(self) -> None:
        for name in (it for it in names(r"STREAM\(", "consumers.c") if it.startswith("good_")):
            with self.subTest(name):
                self.assertEqual(results(words_for(name, stream=True)), {"lawful": set(exports.STREAMS)})

    def test_what_is_refused_may_be_left_where_it_was(self) -> None:
        self.assertEqual(results(words_for("good_untouched", *FEW)), {"refused": set(FEW)})
        found = results(words_for("good_refusal", *FEW, "a window"))
        self.assertEqual(found, {"refused": {"a window"}, "lawful": set(FEW)})

    def test_each_spoilt_consumer_is_named_by_its_rule_alone(self) -> None:
        for name, rule in ARRAYS.items():
            with self.subTest(name):
                self.is_broken(words_for(name, *FEW, *filter(None, [ON.get(name)])), rule)
        for name, rule in STREAMS.items():
            with self.subTest(name):
                self.is_broken(words_for(name, *BROKEN_STREAMS, stream=True), rule)

    def test_a_consumer_that_releases_nothing_and_never_returns_is_hung(self) -> None:
        self.assertEqual(results(words_for("bad_hang", "int32")._replace(seconds=0.5)), {"hung": {"int32"}})

    def test_no_consumer_of_the_file_is_left_out(self) -> None:
        spoilt = {it for it in names(r"(?:CONSUMER\(|STREAM\(|ANSWERER\(|int )", "consumers.c") if it.startswith("bad_")}
        self.assertEqual(spoilt - {"bad_hang", "bad_leak", "bad_stream_answer"}, {*ARRAYS, *STREAMS, *ANSWERS})
        told = {*ARRAYS.values(), *STREAMS.values(), *ANSWERS.values(), "Leak"}
        self.assertEqual(set(RULES) - told, set())

    def test_objects_of_python_are_handed_over_and_named_by_their_rules(self) -> None:
        os.environ["PYTHONPATH"] = str(HERE)
        for name in names("def ", "consumers.py"):
            words = Words(f"consumers:{name}", only=FEW, seconds=60)
            with self.subTest(name):
                if name in OBJECTS:
                    self.is_broken(words, OBJECTS[name])
                elif name.startswith("good_"):
                    result = "refused" if name == "good_refusal" else "lawful"
                    self.assertEqual(results(words), {result: set(FEW)})
        for name in ("good_take", "good_left", "good_in_place", "good_answer"):
            taken = results(Words(f"consumers:{name}", stream=True, seconds=60))
            self.assertEqual(set(taken), {"lawful"}, name)

    def test_a_verdict_says_what_and_where_and_by_which_section(self) -> None:
        verdict, = verdicts(words_for("bad_dictionary_released", "a dictionary"))
        self.assertEqual(verdict, {
            "part": "a dictionary", "result": "unlawful", "fault": "ReleasedChild: array /d", "rule": "ReleasedChild",
            "sentence": "Array /d is released by the consumer, though it still is its parent's, who releases it "
                        "(\"Release callback semantics\").",
            "section": "Release callback semantics", "rules": ["ReleasedChild"]})
        verdict, = verdicts(words_for("bad_crash", "int32"))
        self.assertEqual(verdict["fault"], "it is ended by SIGSEGV, at address 0x4")


class Commands(unittest.TestCase):
    """What the tool prints, and its status."""

    def said(self, *words: str) -> Tuple[List[str], int]:
        ran = subprocess.run([sys.executable, str(HERE / "arrow_tree.py"), *words], stdout=-1, stderr=subprocess.STDOUT,
                             universal_newlines=True, cwd=FOLDER)
        return ran.stdout.splitlines(), ran.returncode

    def test_what_is_the_same_with_several_exports_is_told_once(self) -> None:
        only = ("--only", "int32", "--only", "a table", "--only", "a dictionary")
        self.assertEqual(self.said("--consumer", "./libconsumers.so:good_reader", *only), (["consumer: ok, 3 exports taken"], 0))
        lines = ["int32 and 2 more exports: SourceNotReleased: array",
                 "    Array was copied and the copy released, but what it was copied from isn't marked released "
                 '("Moving an array").']
        self.assertEqual(self.said("--consumer", "./libconsumers.so:bad_source", *only), (lines, 8))
        printed, status = self.said("--consumer", "./libconsumers.so:bad_source", *only, "--json", "--junit", "verdicts.xml")
        self.assertEqual([json.loads(line)["rule"] for line in printed], ["SourceNotReleased"] * 3)
        self.assertEqual((FOLDER / "verdicts.xml").read_text().count("<failure "), 3)

    def test_each_end_has_a_status(self) -> None:
        for name, line, status in (("bad_abort", "it is ended by SIGABRT", 9), ("bad_exit", "it ends the process with status 0", 10),
                                   ("bad_folder", "it changes the folder to /", 6), ("bad_hang", "it takes too long", 7),
                                   ("good_untouched", "none of 1 export is taken", 4)):
            part = "consumer" if status == 4 else "int32"
            words = ("--consumer", f"./libconsumers.so:{name}", "--only", "int32", "--seconds", "2")
            self.assertEqual(self.said(*words), ([f"{part}: {line}"], status))

    def test_wrong_words_have_a_status_of_their_own(self) -> None:
        for words in (["./libconsumers.so:none"], ["./none.so:f"], ["nothing:f"], ["nothing"], ["os:none"],
                      ["./libconsumers.so:good_reader", "--only", "none"], ["./libconsumers.so:good_reader", "--answers"],
                      ["./libconsumers.so:good_reader", "./libproducer.so:export_int32"]):
            lines, status = self.said("--consumer", *words)
            self.assertEqual((status, any("Traceback" in line for line in lines)), (2, False), lines)


class Answers(unittest.TestCase):
    def setUp(self) -> None:
        if not all(PROGRAMS):
            self.skipTest("there is no built program")
        self.programs = dict(zip(("check", "rows"), PROGRAMS), answers=True)

    def test_each_export_is_lawful_and_has_values(self) -> None:
        compared = 0
        for name, each in {**exports.ARRAYS, **{f"{name}, streamed": it for name, it in exports.STREAMS.items()}}.items():
            with self.subTest(name):
                for text in answers.texts_of(each):
                    ran = subprocess.run([PROGRAMS[0], "--check"], input=text, stdout=-1, stderr=-1)
                    left_out = b": schema: Format" in ran.stderr
                    self.assertTrue(left_out or ran.returncode == 0, ran.stderr)
                    compared += answers.rows_of(PROGRAMS[1], [text]) is not None
        self.assertGreater(compared, 70)

    def test_what_is_answered_lawfully_has_the_values_that_were_given(self) -> None:
        taken = results(words_for("good_answer", **self.programs))
        self.assertEqual(taken, {"lawful": set(exports.ARRAYS)})
        streamed = results(words_for("good_stream_answer", stream=True, **self.programs))
        self.assertEqual(streamed, {"lawful": set(exports.STREAMS)})

    def test_each_spoilt_answer_is_named_by_its_rule_alone(self) -> None:
        for name, rule in ANSWERS.items():
            with self.subTest(name):
                found = results(words_for(name, "int32", "a table", **self.programs))
                self.assertEqual(set(found), {rule})
        found = results(words_for("bad_stream_answer", stream=True, **self.programs))
        self.assertEqual(set(found), {"lawful", "OtherValues"})


def wrapper(compiler: str, standard: str, suffix: str) -> ctypes.CDLL:
    """arrow_tree.h in a library."""
    source, library = FOLDER / f"header.{suffix}", FOLDER / f"header-{suffix}.so"
    source.write_text('#include "arrow_tree.h"\n' + ('extern "C" ' if suffix == "cc" else "") + "int write_tree("
                      "const char *path, const struct ArrowSchema *schema, const struct ArrowArray *array, uint64_t most);\n"
                      "int write_tree(const char *path, const struct ArrowSchema *schema, const struct ArrowArray *array, "
                      "uint64_t most) {\n  FILE *out = fopen(path, \"wb\");\n"
                      "  int fault = arrow_tree_write(out, schema, array, most);\n  fclose(out);\n  return fault;\n}\n")
    subprocess.run([compiler, standard, "-Wall", "-Wextra", "-Wpedantic", "-Werror", "-O1", f"-I{HERE}", "-shared", "-fPIC",
                    str(source), "-o", str(library)], check=True)
    return ctypes.CDLL(str(library))


class Header(unittest.TestCase):
    @classmethod
    def setUpClass(cls) -> None:
        cls.libraries = [wrapper("cc", "-std=c99", "c"), wrapper("c++", "-std=c++11", "cc")]
        library = FOLDER / "libproducer.so"
        subprocess.run(["cc", "-O1", "-shared", "-fPIC", str(HERE / "producer.c"), "-o", str(library)], check=True)
        cls.producer = ctypes.CDLL(str(library))

    def written(self, library: Any, schema: Any, array: Any, most: int = 1 << 30) -> Tuple[int, bytes]:
        path = FOLDER / "header.tree"
        fault = library.write_tree(str(path).encode(), schema, array, ctypes.c_uint64(most))
        return fault, path.read_bytes()

    def expected(self, schema: Any, array: Any) -> bytes:
        out = io.BytesIO()
        Writer(1 << 28).tree(ctypes.addressof(schema), ctypes.addressof(array), out, is_whole=True)
        return out.getvalue()

    def live(self) -> Iterator[Tuple[str, Any, Any]]:
        """Exports of producer.c, whatever is wrong with them but their pointers, and those that consumers are handed."""
        text = (HERE / "producer.c").read_text()
        for name in re.findall(r"^(?:void |SPOILT\()((?:export|bad)_\w+)(?:,|\(struct ArrowSchema \*schema, )", text, re.MULTILINE):
            schema, array = room(ArrowSchema), room(ArrowArray)
            if not re.search("wild|memory|open|json", name):  # what leads out of memory
                getattr(self.producer, name)(schema, array)
                yield name, schema, array
        for name, each in exports.ARRAYS.items():
            schema, array = room(ArrowSchema), room(ArrowArray)
            self.lender = Lender(Record())
            self.lender.lend("schema", each, ctypes.addressof(schema), "schema")
            self.lender.lend("array", each, ctypes.addressof(array), "array")
            yield name, schema, array

    def test_its_texts_are_those_of_the_python_writer(self) -> None:
        compared = refused = 0
        for name, schema, array in self.live():
            with self.subTest(name):
                try:
                    expected = self.expected(schema, array)
                except Refused:
                    refused += 1
                    for library in self.libraries:
                        self.assertEqual(self.written(library, schema, array)[0], errno.EINVAL)
                    continue
                for library in self.libraries:
                    fault, text = self.written(library, schema, array, 1 << 20)
                    self.assertEqual(fault, 0 if len(expected) <= 1 << 20 else errno.EFBIG)
                    self.assertTrue(text == expected if not fault else expected.startswith(text))
                    compared += 1
        self.assertGreater(compared, 200)
        self.assertGreater(refused, 2)

    def test_no_more_is_written_than_may_be(self) -> None:
        tried = 0
        for name, schema, array in self.live():
            if name not in ("export_int32", "export_many", "a dictionary", "views over buffers", "list views"):
                continue
            whole = self.expected(schema, array)
            for most in range(len(whole) + 1):
                fault, text = self.written(self.libraries[0], schema, array, most)
                self.assertEqual(fault, errno.EFBIG if most < len(whole) else 0)
                self.assertTrue(len(text) <= most and whole.startswith(text))
                tried += 1
        self.assertGreater(tried, 1000)

    def test_nothing_is_allocated_and_a_full_disk_is_named(self) -> None:
        calls = set(re.findall(r"\b(\w+)\(", (HERE / "arrow_tree.h").read_text()))
        self.assertEqual({it for it in calls if it.endswith("alloc") or it in ("free", "strdup", "fopen")}, set())
        schema, array = room(ArrowSchema), room(ArrowArray)
        self.producer.export_many(schema, array)
        for library in self.libraries:
            self.assertEqual(library.write_tree(b"/dev/full", schema, None, ctypes.c_uint64(1 << 20)), errno.ENOSPC)
            self.assertEqual(library.write_tree(b"/dev/null", schema, None, ctypes.c_uint64(1 << 20)), 0)
        release(array)
        release(schema)


class Sanitized(unittest.TestCase):
    """Lawful consumers under AddressSanitizer with its search for leaks, where the compiler has it."""

    def test_lawful_consumers_pass_and_a_leak_is_named(self) -> None:
        runtime = subprocess.run(["cc", "-print-file-name=libasan.so"], stdout=-1, universal_newlines=True).stdout.strip()
        library = FOLDER / "libsanitized.so"
        built = subprocess.run(["cc", "-std=c11", "-O1", "-g", "-fsanitize=address", "-shared", "-fPIC", "-pthread",
                                str(HERE / "consumers.c"), "-o", str(library)], stderr=-1)
        if built.returncode or not os.path.isabs(runtime):
            self.skipTest("the compiler has no AddressSanitizer")
        environment = {**os.environ, "LD_PRELOAD": runtime, "ASAN_OPTIONS": "leak_check_at_exit=0", "PYTHONMALLOC": "malloc"}
        look = "import ctypes; ctypes.CDLL(None).__lsan_do_recoverable_leak_check()"
        if subprocess.run([sys.executable, "-c", look], stderr=-1, env=environment).returncode:
            self.skipTest("LeakSanitizer doesn't run here")
        lawful = [(it, False) for it in names(r"CONSUMER\(", "consumers.c") if it.startswith("good_")]
        lawful += [(it, True) for it in names(r"STREAM\(", "consumers.c") if it.startswith("good_")]
        program = (f"import sys; sys.path.insert(0, {str(HERE)!r}); sys.dont_write_bytecode = True\n"
                   f"from arrow_check.consumer import Words, verdicts\n"
                   f"for name, stream in {[*lawful, ('bad_leak', False)]!r}:\n"
                   f"    only = ['many chunks'] if stream else ['a table']\n"
                   f"    for it in verdicts(Words({str(library)!r} + ':' + name, stream=stream, only=only, seconds=60)):\n"
                   f"        print(name, it['fault'])\n")
        ran = subprocess.run([sys.executable, "-c", program], stdout=-1, stderr=-1, universal_newlines=True,
                             env=environment)
        self.assertEqual(ran.stdout, "".join(f"{name} ok\n" for name, _ in lawful) + "bad_leak Leak: the consumer\n", ran.stderr)


def compiled() -> None:
    command = ["cc", "-std=c11", "-Wall", "-Wextra", "-Werror", "-O1", "-g", "-shared", "-fPIC", "-pthread"]
    subprocess.run([*command, str(HERE / "consumers.c"), "-o", str(FOLDER / "libconsumers.so")], check=True)


def main() -> int:
    global PROGRAMS
    parser = argparse.ArgumentParser(description=__doc__)
    parser.add_argument("program", nargs="?")
    parser.add_argument("--quiet", action="store_true", help="print only what fails")
    words, rest = parser.parse_known_args()
    if words.program:
        pipe = Path(words.program).resolve()
        trees = [pipe.parent / "arrowtree", pipe.parents[2] / "arrowtree/out/arrowtree"]
        tree = next((it for it in trees if os.access(it, os.X_OK)), None)
        if not tree or not os.access(pipe, os.X_OK):
            print(f"consumers: there is no program {words.program}, or no arrowtree beside it")
            return 1
        PROGRAMS = str(pipe), str(tree)
    compiled()
    suite = unittest.defaultTestLoader.loadTestsFromNames(rest or ["Consumers", "Commands", "Answers", "Header", "Sanitized"],
                                                          sys.modules[__name__])
    result = unittest.TextTestRunner(verbosity=0, stream=io.StringIO()).run(suite)
    for test, trace in result.failures + result.errors:
        print(f"consumers: {test}\n{trace}")
    failed, skipped = len(result.failures) + len(result.errors), len(result.skipped)
    passed = result.testsRun - skipped - len({str(test).split(" [")[0] for test, _ in result.failures + result.errors})
    if failed or not words.quiet:
        print(f"consumers: {passed} tests passed, {failed} failures, {skipped} skipped"
              f"{'' if all(PROGRAMS) else ' (without programs no answer is compared)'}; {len(exports.ARRAYS)} arrays, "
              f"{len(exports.STREAMS)} streams, {len({*ARRAYS, *STREAMS, *ANSWERS, *OBJECTS})} spoilt consumers, "
              f"{COUNT['verdicts']} verdicts")
    return 1 if failed or passed < 1 else 0


if __name__ == "__main__":
    sys.exit(main())
