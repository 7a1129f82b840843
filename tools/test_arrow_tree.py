#!/usr/bin/env python3
"""Tests arrow_check over the exports of producer.c and over spoilt memory. Prints how many tests ran, and fails where one does.

    test_arrow_tree.py [--quiet] [--no-program] [PROGRAM]     PROGRAM: the arrowpipe whose verdicts are compared too

Without PROGRAM it is out/arrowpipe or crates/arrowpipe/out/arrowpipe, where one of these is there. With --quiet only what fails is
printed; with --no-program no verdict is compared."""
import argparse
import ast
import contextlib
import ctypes
import io
import json
import os
import random
import re
import signal
import struct
import subprocess
import sys
import time
import tempfile
import unittest
from pathlib import Path
from typing import Any, Dict, List, NamedTuple, Optional, Tuple

sys.dont_write_bytecode = True
HERE = Path(__file__).resolve().parent
sys.path.insert(0, str(HERE))
from arrow_check import abi, assert_lawful, cli  # noqa: E402
from arrow_check import layout as at  # noqa: E402
from arrow_check.checker import KNOWN  # noqa: E402

# A job in the background begins with SIGINT ignored, and so would the tool that it starts.
signal.signal(signal.SIGINT, signal.default_int_handler)

ROOM = tempfile.TemporaryDirectory(prefix="arrow-tree-")
FOLDER = Path(ROOM.name)
PROGRAM: Optional[str] = None
CHECKED: List[Any] = []
SPOILT_MEMORIES = 2000


class Row(NamedTuple):
    """An export: which stored text it has with which lines in place of others, and what the check says of it."""

    name: str
    base: str
    lines: Dict[int, Optional[str]]  # by number from 1; None for a line that isn't there
    verdict: str
    status: int = 8


LOST: Dict[int, Optional[str]] = {0: None}  # no text to compare: it has bytes of memory behind a buffer
VIEWS = "B =02000000686900000000000000000000"
ROWS = [
    Row("export_int32", "int32", {}, "ok", 0),
    Row("export_float32_utf8", "float32_utf8", {}, "ok", 0),
    Row("export_many", "many", {}, "ok", 0),
    Row("export_slice", "float32_utf8", {5: "A 1 0 1 1 2 0", 10: "A 2 -1 1 3 0 0"}, "ok", 0),
    Row("export_empty", "float32_utf8", {
        5: "A 0 0 0 1 2 0", 7: "A 0 -1 0 2 0 0", 8: "B ~", 9: "B ~", 10: "A 0 -1 0 3 0 0", 12: "B ~", 13: "B ~"}, "ok", 0),
    Row("export_64_levels", "", {1: "tree 1\n" + "S =+s =deep 2 1 0 ~\n" * 63 + "S =+s =deep 2 0 0 ~\n"
                                    + "A 0 0 0 1 1 0\nB ~\n" * 63 + "A 0 0 0 1 0 0\nB ~"}, "ok", 0),
    Row("export_union", "union", {}, "ok", 0),
    Row("export_list_view", "list_view", {}, "tree /: schema: Format (the root: +vl, a list view)", 4),
    Row("export_runs", "runs", {}, "ok", 0),
    Row("export_decimal64", "decimal64", {},
        "tree /: schema: Format (the root: d:18,2,64, a decimal of 32 or 64 bits)", 4),
    # the rules of schemas
    Row("bad_65_levels", "", {1: "tree 1\n" + "S =+s =deep 2 1 0 ~\n" * 64 + "S !\nA !"},
        "tree " + "/0" * 64 + ": schema: Deep (" + "deep." * 63 + "child 0: )"),
    Row("bad_cycle", "", {1: "tree 1\n" + "S =+s = 0 2 0 ~\n" * 64 + "S !\n" * 65 + "A !"},
        "tree " + "/0" * 64 + ": schema: Deep (" + ".".join(["child 0"] * 64) + ": )"),
    Row("bad_released_type", "int32", {2: "S !", 5: "B ~"}, "tree /: schema: Released (the root: )"),
    Row("bad_released_child_type", "float32_utf8", {4: "S !", 12: "B ~", 13: "B ~"},
        "tree /1: schema: Released (child 1: )"),
    Row("bad_format", "float32_utf8", {4: "S =string =strings 2 0 0 ~", 12: "B ~", 13: "B ~"},
        "tree /1: schema: Format (strings: string)"),
    Row("bad_time_format", "float32_utf8", {4: "S =tss =strings 2 0 0 ~", 12: "B ~", 13: "B ~"},
        "tree /1: schema: Format (strings: tss)"),
    Row("bad_metadata", "many", {2: "S =+s =many 2 7 0 =%01%00%00%00%04%00%00%00key1%FF%FF%FF%FF"},
        "tree /: schema: Meta (the root: +s)"),
    Row("bad_json_metadata", "float32_utf8", LOST, "tree /1: schema: Meta (strings: u)"),
    Row("bad_list_type", "many", {
        11: "S =+w:2 =pairs%20of%0Afloats 2 0 0 ~", 12: None, 47: "A !", 48: None, 49: None},
        r"tree /3: schema: ChildCount (pairs of\nfloats: +w:2)"),
    Row("bad_index_type", "many", LOST, "tree /1: schema: DictIndexType (dict: f)"),
    Row("bad_map_type", "many", {4: "S =+l =entries 2 2 0 ~"}, "tree /0: schema: MapShape (map: +m)"),
    # the rules of arrays
    Row("bad_released", "int32", {3: "A !", 4: None, 5: None}, "tree /: Released at 0: 0, 0 (the root: i)"),
    Row("bad_released_child", "float32_utf8", {7: "A !", 8: None, 9: None}, "tree /0: Released at 0: 0, 0 (floats: f)"),
    Row("bad_negative_length", "float32_utf8", {5: "A -1 0 0 1 2 0"}, "tree /: NegativeLength at 0: -1, 0 (the root: +s)"),
    Row("bad_negative_child", "float32_utf8", {10: "A -3 -1 0 3 0 0", 12: "B ~", 13: "B ~"},
        "tree /: ChildShort at 1: -3, 3 (the root: +s)"),
    Row("bad_negative_offset", "float32_utf8", {10: "A 3 -1 -1 3 0 0", 12: "B ~", 13: "B ~"},
        "tree /1: NegativeOffset at 0: -1, 0 (strings: u)"),
    Row("bad_buffer_count", "float32_utf8", {10: "A 3 -1 0 2 0 0", 12: "B ~", 13: None},
        "tree /1: BufferCount at 0: 2, 3 (strings: u)"),
    Row("bad_struct_buffers", "float32_utf8", {5: "A 3 0 0 0 2 0", 6: None}, "tree /: BufferCount at 0: 0, 1 (the root: +s)"),
    Row("bad_child_count", "float32_utf8", {
        5: "A 3 0 0 1 1 0", 7: "A !", 8: None, 9: None, 10: None, 11: None, 12: None, 13: None},
        "tree /: ChildCount at 0: 1, 2 (the root: +s)"),
    Row("bad_missing_dictionary", "many", {33: "A 2 1 1 2 0 0", 36: None, 37: None, 38: None, 39: None},
        "tree /1: Dictionary at 0: 0, 1 (dict: c)"),
    Row("bad_needless_dictionary", "float32_utf8", {7: "A 3 -1 0 2 0 1", 9: "B =0000c03f00000000000010c0\nA !"},
        "tree /0: Dictionary at 0: 1, 0 (floats: f)"),
    Row("bad_missing_data", "float32_utf8", {9: "B ~"}, "tree /0: BufferAbsent at 1: 0, 12 (floats: f)"),
    Row("bad_missing_offsets", "float32_utf8", {12: "B ~", 13: "B ="}, "tree /1: BufferAbsent at 1: 0, 16 (strings: u)"),
    Row("bad_missing_text", "float32_utf8", {13: "B ~"}, "tree /1: BufferAbsent at 2: 0, 9 (strings: u)"),
    Row("bad_end_of_memory", "int32", {3: "A 6 0 0 2 0 0", 5: "B =" + "78" * 20},
        "tree /: BufferShort at 1: 20, 24 (the root: i)"),
    Row("bad_wild_pointer", "float32_utf8", {9: "B ="}, "tree /0: BufferShort at 1: 0, 12 (floats: f)"),
    Row("bad_last_offset", "float32_utf8", LOST, "tree /1: BufferShort at 2: N, 2000000000 (strings: u)"),
    Row("bad_huge_length", "int32", LOST, "tree /: BufferShort at 1: N, 36893488147419103228 (the root: i)"),
    Row("bad_offsets", "float32_utf8", {12: "B =00000000040000000300000009000000"},
        "tree /1: OffsetsFall at 1: 4, 3 (strings: u)"),
    Row("bad_first_offset", "float32_utf8", {12: "B =ffffffff030000000300000009000000"},
        "tree /1: OffsetsFall at 0: 0, -1 (strings: u)"),
    Row("bad_short_child", "float32_utf8", {5: "A 4 0 0 1 2 0"}, "tree /: ChildShort at 0: 3, 4 (the root: +s)"),
    Row("bad_struct_offset", "float32_utf8", {5: "A 3 0 1 1 2 0"}, "tree /: ChildShort at 0: 3, 4 (the root: +s)"),
    Row("bad_list_offsets", "many", {29: "B =00000000020000000200000004000000"},
        "tree /0/0/1: ChildShort at 0: 3, 4 (map.entries.value: +l)"),
    Row("bad_fixed_list", "many", {47: "A 3 0 0 2 0 0", 49: "B =9a9999999999b93f9c7500883ce4377e0000000000000080"},
        r"tree /3: ChildShort at 0: 3, 4 (pairs of\nfloats: +w:2)"),
    Row("bad_null_count", "float32_utf8", {7: "A 3 0 0 2 0 0"}, "tree /0: NullCount at 0: 0, 1 (floats: f)"),
    Row("bad_view_length", "many", {42: "B =feffffff686900000000000000000000" + "0d00000068656c6c0000000000000000"},
        "tree /2: ViewPlace at 0: -2, 0 (view: vu)"),
    Row("bad_view_buffer", "many", {42: VIEWS + "0d00000068656c6c0100000000000000"},
        "tree /2: ViewPlace at 1: 1, 1 (view: vu)"),
    Row("bad_view_offset", "many", {42: VIEWS + "0d00000068656c6c00000000ffffffff"},
        "tree /2: ViewPlace at 1: -1, 0 (view: vu)"),
    Row("bad_view_place", "many", {43: "B =68656c6c6f2c20776f726c64", 44: "B =0c00000000000000"},
        "tree /2: ViewPlace at 1: 13, 12 (view: vu)"),
    Row("bad_view_prefix", "many", {42: VIEWS + "0d00000069656c6c0000000000000000"},
        f"tree /2: ViewPrefix at 1: {0x6C6C6569}, {0x6C6C6568} (view: vu)"),
    Row("bad_view_text", "many", {43: "B =68656c6c6f2c2077ff726c6421"}, "tree /2: NotText at 1: 8, 13 (view: vu)"),
    Row("bad_text", "float32_utf8", {13: "B =6162636878a96c6c6f"}, "tree /1: NotText at 2: 2, 6 (strings: u)"),
    Row("bad_dictionary_text", "many", {39: "B =ff6f796573"}, "tree /1/d: NotText at 0: 0, 2 (dict.<dictionary>: u)"),
    Row("bad_index", "many", {35: "B =09024d"}, "tree /1: IndexRange at 0: 2, 2 (dict: c)"),
    Row("bad_negative_index", "many", {35: "B =09ff4d"}, "tree /1: IndexRange at 0: -1, 2 (dict: c)"),
    Row("bad_window", "", {1: "tree 1\nS =n = 2 0 0 ~\nA 1099511627776 0 1 0 0 0"},
        "tree /: WindowTooLong at 0: 1099511627777, 1099511627776 (the root: n)"),
    # what passes
    Row("bad_null_type_count", "many", {56: "A 2 0 0 0 0 0"}, "ok", 0),
    Row("bad_short_buffer", "int32", LOST, "ok", 0),
    Row("bad_release", "int32", {}, "ok\nproducer: the release of ArrowArray leaves it unreleased"),
]
# What can't be written as a text, and why.
UNWRITTEN = [
    ("bad_wild_name", "/0: name at 0x7000000000000000 isn't in mapped memory"),
    ("bad_open_name", r"/0: name at 0x[0-9a-f]+000 isn't in mapped memory"),
    ("bad_many_children", "/: ArrowArray has 1099511627776 children, or wrongly many buffers"),
    ("bad_negative_children", "/: ArrowSchema has -1 children, or wrongly many buffers"),
]
# What is refused as it is read.
NULLS = [
    ("bad_no_format", "tree /0: NullPointer: format", "Child 0 has a null pointer in place of its format."),
    ("bad_null_child", "tree /0: NullPointer: structure", "Column floats has a null pointer in place of its structure."),
    ("bad_null_children", "tree /: NullPointer: children", "The root has a null pointer in place of its children."),
    ("bad_null_buffers", "tree /1: NullPointer: buffers", "Column strings has a null pointer in place of its buffers."),
]
# Of streams the lines, the status, and what was released: nodes of schemas, nodes of arrays, streams.
STREAMS: List[Tuple[str, str, int, str]] = [
    ("stream_chunks", "schema: ok|chunk 0: ok|chunk 1: ok|chunk 2: ok", 0, "3 9 1"),
    ("stream_no_chunk", "schema: ok", 0, "3 0 1"),
    ("stream_breaks", "schema: ok|chunk 0: ok|chunk 1: ok|producer: get_next answers 5: 'the disk is gone'", 3, "3 6 1"),
    ("stream_breaks_silently", "schema: ok|chunk 0: ok|chunk 1: ok|producer: get_next answers 5: no text", 3, "3 6 1"),
    ("stream_forges", r"schema: ok|chunk 0: ok|chunk 1: ok|producer: get_next answers 5: 'no\nchunk 9: ok\x1b[2J'", 3, "3 6 1"),
    ("stream_no_schema", "producer: get_schema answers 12: 'the disk is gone'", 3, "0 0 1"),
    ("stream_no_next", "schema: ok|producer: the stream is released, or has no get_next", 8, "3 0 1"),
    ("stream_released", "producer: the stream is released, or has no get_schema", 8, "0 0 1"),
    ("stream_null_rows", "schema: ok|chunk 0: ok|chunk 1: tree /: TopNulls at 0: 1, 0 (the root: +s)|chunk 2: ok", 8,
     "3 9 1"),
    ("stream_null_items", "schema: ok|chunk 0: ok|chunk 1: ok|chunk 2: ok", 0, "1 3 1"),
    ("stream_spoilt_chunk", "schema: ok|chunk 0: ok|chunk 1: tree /0: NullCount at 0: 0, 1 (floats: f)|chunk 2: ok", 8,
     "3 9 1"),
    ("stream_spoilt_type", "schema: tree /1: schema: Format (strings: string)", 8, "3 0 1"),
    ("stream_other_children", "schema: ok|chunk 0: ok|chunk 1: tree /: ChildCount at 0: 1, 2 (the root: +s)|chunk 2: ok",
     8, "3 9 1"),
]
# Of formats how many bytes each buffer of nine items has, where each offset is 7.
SIZES = {
    "n": [], "b": [2, 2], "c": [2, 9], "C": [2, 9], "s": [2, 18], "S": [2, 18], "e": [2, 18], "i": [2, 36], "I": [2, 36],
    "f": [2, 36], "l": [2, 72], "L": [2, 72], "g": [2, 72], "tdD": [2, 36], "tdm": [2, 72], "tts": [2, 36], "ttm": [2, 36],
    "ttu": [2, 72], "ttn": [2, 72], "tss:": [2, 72], "tsn:UTC\n": [2, 72], "tDu": [2, 72], "tiM": [2, 36], "tiD": [2, 72],
    "tin": [2, 144], "d:9,2": [2, 144], "d:9,-2,128": [2, 144], "d:9,2,256": [2, 288], "d:9,2,64": [2, 72],
    "d:9,2,32": [2, 36], "w:0": [2, 0], "w:5": [2, 45], "u": [2, 40, 7], "z": [2, 40, 7], "U": [2, 80, 7], "Z": [2, 80, 7],
    "vu": [2, 144, 0], "+s": [2], "+w:3": [2], "+l": [2, 40], "+m": [2, 40], "+L": [2, 80], "+vl": [2, 36, 36],
    "+vL": [2, 72, 72], "+us:0": [9], "+ud:0": [9, 36], "+r": [], "x": [0, 0], "tss": [0, 0], "w:": [0, 0]}


def as_pattern(text: str) -> str:
    return re.escape(text).replace("N,", r"\d+,")


def expected_text(row: Row) -> str:
    stored = (HERE / f"expected/{row.base}.tree").read_text().splitlines() if row.base else [""]
    lines = [row.lines.get(number, line) for number, line in enumerate(stored, 1)]
    return "\n".join(line for line in lines if line is not None) + "\n"


def structures(*forms: Any) -> List[Any]:
    return [abi.room(form) for form in forms]


def filled(function: str) -> Tuple[Any, Any]:
    schema, array = structures(abi.ArrowSchema, abi.ArrowArray)
    getattr(LIBRARY, function)(ctypes.byref(schema), ctypes.byref(array))
    return schema, array


def text_of(schema: Any, array: Any, most: int = 1 << 26, direct: bool = False) -> str:
    out = io.BytesIO()
    at.Writer(most, direct).tree(ctypes.addressof(schema), ctypes.addressof(array), out)
    return out.getvalue().decode()


def tool(*words: Any, **how: Any) -> "subprocess.CompletedProcess[str]":
    return subprocess.run([sys.executable, str(HERE / "arrow_tree.py"), *map(str, words)], stdout=how.pop("stdout", -1),
                          stderr=-1, universal_newlines=True, timeout=300, cwd=FOLDER, **how)


def main_here(*words: Any) -> Tuple[str, int]:
    """What the tool prints within this process but the sentences, and its status."""
    with contextlib.redirect_stdout(io.StringIO()) as printed:
        status = cli.main([*map(str, words), "--no-lifetimes"])
    return "".join(line for line in printed.getvalue().splitlines(True) if line[0] != " "), status


def released_by(*words: Any, **how: Any) -> Tuple[Any, str]:
    """A run of the tool, and what was released in it."""
    counts = FOLDER / "released"
    counts.write_bytes(bytes(12))
    ran = tool(*words, "--no-lifetimes", env={**os.environ, "RELEASED": str(counts)}, **how)
    return ran, " ".join(map(str, struct.unpack("3i", counts.read_bytes())))


def fake_check(fault: str, status: int) -> Path:
    """A program that answers as the check would: of the known texts, and of all others the same."""
    path = FOLDER / "fake"
    known = "".join(f"'{text.strip()}') printf '{out}'; printf '{err}' >&2; exit {ends};;\n" for text, ends, out, err in KNOWN)
    path.write_text(f"#!/bin/sh\ncase $(cat) in\n{known}esac\necho 'ok'\necho '/ =+s 3 0'\n"
                    f"[ {status} = 0 ] || echo '{fault}' >&2\nexit {status}\n")
    path.chmod(0o755)
    return path


class Grammar:
    """A text of a tree, line by line; fails where it is outside the grammar of docs/FORMATS.md."""

    NUMBER = r"(?:0|-?[1-9]\d*)"
    TOKEN = r"(?:~|=(?:[!-$&-~]|%[0-9A-F]{2})*)"
    SCHEMA = re.compile(rf"S =(?:[!-$&-~]|%[0-9A-F]{{2}})* {TOKEN} {NUMBER} (\d+) ([01]) {TOKEN}")
    ARRAY = re.compile(rf"A {NUMBER} {NUMBER} {NUMBER} (\d+) (\d+) ([01])")

    def __init__(self, text: str) -> None:
        assert text.endswith("\n")
        self.lines = iter(text[:-1].split("\n"))
        assert next(self.lines) == "tree 1"
        self.schema()
        self.array()
        assert next(self.lines, None) is None

    def schema(self) -> None:
        line = next(self.lines)
        if line != "S !":
            found = self.SCHEMA.fullmatch(line)
            assert found, line
            for _ in range(int(found[1]) + int(found[2])):
                self.schema()

    def array(self) -> None:
        line = next(self.lines)
        if line != "A !":
            found = self.ARRAY.fullmatch(line)
            assert found, line
            for _ in range(int(found[1])):
                line = next(self.lines)
                assert line == "B ~" or re.fullmatch(r"B =(?:[0-9a-f]{2})*", line), line[:60]
            for _ in range(int(found[2]) + int(found[3])):
                self.array()


class Texts(unittest.TestCase):
    def test_each_export_has_its_text(self) -> None:
        compared = 0
        for row in (row for row in ROWS if row.lines is not LOST):
            with self.subTest(row.name):
                schema, array = filled(row.name)
                self.assertEqual(text_of(schema, array), expected_text(row))
                Grammar(expected_text(row))
                compared += 1
                if row.name != "bad_release":
                    abi.release(array)
                    abi.release(schema)
        self.assertEqual(compared, len(ROWS) - 5)

    def test_what_cannot_be_written_is_refused(self) -> None:
        for name, why in UNWRITTEN:
            with self.subTest(name), self.assertRaises(at.Refused) as refused:
                text_of(*filled(name))
            self.assertEqual(refused.exception.args[0], "not written")
            self.assertRegex(refused.exception.args[1], f"^{why}$")

    def test_a_null_pointer_is_a_rule(self) -> None:
        for name, fault, sentence in NULLS:
            with self.subTest(name):
                ran = tool(f"./libproducer.so:{name}", "--out", "nulls", "--json")
                said = json.loads(ran.stdout)
                self.assertEqual((ran.returncode, said["fault"], said["rule"]), (8, fault, "NullPointer"))
                self.assertEqual(said["sentence"], sentence)

    def test_a_long_name_is_read_in_time_that_is_linear(self) -> None:
        texts = {}
        for size in (1 << 18, 1 << 21):
            name, format = ctypes.create_string_buffer(b"n" * size), ctypes.create_string_buffer(b"i")
            schema = abi.room(abi.ArrowSchema)
            schema[:] = [ctypes.addressof(format), ctypes.addressof(name), 0, 0, 0, 0, 0, 1, 0]
            began = time.process_time()
            out = io.BytesIO()
            at.Writer(1 << 26).tree(ctypes.addressof(schema), 0, out)
            texts[size] = time.process_time() - began
            self.assertEqual(len(out.getvalue()), len("tree 1\nS =i = 0 0 0 ~\nA !\n") + size)
        self.assertLess(texts[1 << 21], 64 * max(texts[1 << 18], 0.005))

    def test_no_more_than_twice_the_bound_is_written(self) -> None:
        schema, array = filled("export_float32_utf8")
        array[3] = array[4] = 1 << 20  # buffers and children, none of which is read
        out = io.BytesIO()
        with self.assertRaisesRegex(at.Refused, "more is to be written than twice what --most allows"):
            at.Writer(1 << 16).tree(ctypes.addressof(schema), ctypes.addressof(array), out)
        self.assertLess(len(out.getvalue()), 1 << 18)

    def test_each_buffer_is_as_long_as_its_type_asks(self) -> None:
        memory = ctypes.create_string_buffer(b"\7\0\0\0" * 100)
        wide = ctypes.create_string_buffer(b"\7\0\0\0\0\0\0\0" * 50)
        for format, sizes in SIZES.items():
            with self.subTest(format):
                text = ctypes.create_string_buffer(format.encode())
                places = (ctypes.c_void_p * 3)(*[ctypes.addressof(wide if format in "UZ" else memory)] * 3)
                schema, array = structures(abi.ArrowSchema, abi.ArrowArray)
                schema[:] = [ctypes.addressof(text), 0, 0, 0, 0, 0, 0, 1, 0]
                array[:] = [6, 0, 3, len(sizes), 0, ctypes.addressof(places), 0, 0, 1, 0]
                lines = text_of(schema, array).splitlines()[3:]
                self.assertEqual([len(line[3:]) // 2 for line in lines], sizes)

    def test_direct_reads_give_the_same_text(self) -> None:
        for name in ("export_many", "export_float32_utf8", "export_empty", "export_union", "export_runs"):
            schema, array = filled(name)
            self.assertEqual(text_of(schema, array, direct=True), text_of(schema, array))
            abi.release(array)
            abi.release(schema)

    def test_no_more_than_the_bound_is_read(self) -> None:
        schema, array = filled("export_int32")
        writer = at.Writer(1 << 20, False)
        writer.tree(ctypes.addressof(schema), ctypes.addressof(array), io.BytesIO())
        used = (1 << 20) - writer.left
        text_of(schema, array, used)
        with self.assertRaisesRegex(at.Refused, "/: buffer 1: more bytes are asked for than --most allows"):
            text_of(schema, array, used - 1)

    def test_spoilt_memory_is_no_crash_and_gives_no_text_outside_the_grammar(self) -> None:
        chance, written, refused = random.Random(20261130), 0, 0
        texts = []
        for _ in range(SPOILT_MEMORIES):
            memory = SpoiltMemory(chance)
            try:
                text = text_of(memory.schema, memory.array, 1 << 18)
            except at.Refused:
                refused += 1
                continue
            Grammar(text)
            written += 1
            texts.append(text)
        self.assertEqual(written + refused, SPOILT_MEMORIES)
        self.assertGreater(min(written, refused), SPOILT_MEMORIES // 10)
        for text in texts if PROGRAM else []:
            ran = subprocess.run([PROGRAM, "--check"], input=text.encode(), stdout=-1, stderr=-1)
            self.assertIn(ran.returncode, (0, 8))
            self.assertNotIn(b"tree line", ran.stderr)

    def test_the_source_is_of_python_3_8_and_short(self) -> None:
        files = sorted((HERE / "arrow_check").glob("*.py"))
        self.assertGreater(len(files), 10)
        for file in [HERE / "arrow_tree.py", *files]:
            source = file.read_text()
            ast.parse(source, feature_version=(3, 8))
            lines = source.splitlines()
            self.assertLessEqual(len(lines), 300, file)
            self.assertLessEqual(max(map(len, lines)), 160, file)


class SpoiltMemory:
    """Structures of random kinds in which a few members are spoilt: pointers, counts, lengths, cycles, null children."""

    FORMATS = [b"i", b"u", b"U", b"b", b"vu", b"+l", b"+s", b"+w:3", b"+m", b"n", b"d:9,2", b"w:7", b"+vl", b"+ud:0,1",
               b"+r", b"tss:", b"q", b"", b"+w:99999999999"]

    POOL = bytes(random.Random(1).choices(b"\0\0\0\0\0\1\2\3a\xff", k=1 << 14))

    def __init__(self, chance: random.Random) -> None:
        self.chance, self.kept, self.schemas, self.arrays = chance, [], [], []
        self.schema, self.array = self.node(0)
        for _ in range(chance.randrange(4)):
            nodes = chance.choice([self.schemas, self.arrays])
            node = chance.choice(nodes)
            node[chance.randrange(len(node) - 2)] = self.spoilt(ctypes.addressof(chance.choice(nodes)))
        if chance.random() < 0.05:
            chance.choice(self.schemas + self.arrays)[-2] = 0

    def spoilt(self, cycle: int) -> int:
        wild = [0, 1, -1, 2, 8, 7 << 60, -(1 << 63), (1 << 63) - 1, 1 << 40, 300]
        return self.chance.choice([*wild, cycle, cycle + 8, id(self), self.chance.randrange(1 << 47)])

    def places(self, addresses: List[int]) -> int:
        self.kept.append((ctypes.c_int64 * max(1, len(addresses)))(*addresses))
        return ctypes.addressof(self.kept[-1]) if addresses else 0

    def bytes(self, size: int) -> int:
        start = self.chance.randrange(len(self.POOL) - size)
        self.kept.append(ctypes.create_string_buffer(self.POOL[start:start + size]))
        return ctypes.addressof(self.kept[-1])

    def node(self, level: int) -> Tuple[Any, Any]:
        chance, format = self.chance, self.chance.choice(self.FORMATS)
        is_nested = format[:1] == b"+" and level < 5
        children = [self.node(level + 1) for _ in range(chance.choice([1, 1, 2]) if is_nested else 0)]
        dictionary = self.node(level + 1) if level < 5 and chance.random() < 0.1 else None
        self.kept.append(ctypes.create_string_buffer(format))
        schema, array = structures(abi.ArrowSchema, abi.ArrowArray)
        metadata = self.bytes(40) if chance.random() < 0.2 else 0
        schema[:] = [ctypes.addressof(self.kept[-1]), self.bytes(3), metadata, 2, len(children),
                     self.places([ctypes.addressof(child) for child, _ in children]),
                     ctypes.addressof(dictionary[0]) if dictionary else 0, 1, 0]
        buffers = [chance.choice([0, self.bytes(400), self.bytes(400)]) for _ in range(4)]
        holds = next((holds for pattern, holds in at.LAYOUTS.items() if re.fullmatch(pattern, format.decode())), "1 1")
        array[:] = [chance.randrange(12), chance.choice([0, -1, 2]), chance.choice([0, 0, 3]), len(holds.split()),
                    len(children), self.places(buffers), self.places([ctypes.addressof(child) for _, child in children]),
                    ctypes.addressof(dictionary[1]) if dictionary else 0, 1, 0]
        self.schemas.append(schema)
        self.arrays.append(array)
        return schema, array


class Runs(unittest.TestCase):
    def test_texts_are_kept_where_no_program_checks_them(self) -> None:
        ran, released = released_by("./libproducer.so:stream_chunks", "--stream", "--out", "kept/here")
        names = ["schema", "chunk-0", "chunk-1", "chunk-2"]
        self.assertEqual(ran.stdout, "".join(f"{it.replace('-', ' ')}: kept/here/{it}.tree\n" for it in names))
        self.assertEqual((ran.returncode, released), (0, "3 9 1"))
        stored = (HERE / "expected/float32_utf8.tree").read_text()
        for name in names:
            wanted = stored if name != "schema" else "\n".join(stored.split("\n")[:4]) + "\nA !\n"
            self.assertEqual((FOLDER / f"kept/here/{name}.tree").read_text(), wanted)

    def test_producers_of_a_module_are_read_and_what_is_theirs_stays_so(self) -> None:
        environment = {**os.environ, "PYTHONPATH": str(HERE), "PRODUCER": str(FOLDER / "libproducer.so")}
        counts = FOLDER / "released"
        for name, parts, released in (("array_capsules", "array", "3 3 0"), ("stream_capsule", "schema", "3 9 1"),
                                      ("schema_capsule", "schema", "3 3 0"), ("array_addresses", "array", "0 0 0"),
                                      ("stream_address", "schema", "3 9 0")):
            with self.subTest(name):
                counts.write_bytes(bytes(12))
                ran = tool(f"capsule_cases:{name}", "--out", f"module-{name}", env={**environment, "RELEASED": str(counts)})
                self.assertEqual((ran.returncode, ran.stderr), (0, ""))
                self.assertEqual(ran.stdout.split(":")[0], parts)
                self.assertEqual(" ".join(map(str, struct.unpack("3i", counts.read_bytes()))), released)
                text = (FOLDER / f"module-{name}/{'array' if parts == 'array' else 'schema'}.tree").read_text()
                stored = (HERE / "expected/float32_utf8.tree").read_text()
                self.assertEqual(text, stored if parts == "array" else "\n".join(stored.split("\n")[:4]) + "\nA !\n")
        ran = tool("capsule_cases:no_export", "--out", "module", env=environment)
        self.assertEqual((ran.returncode, ran.stdout), (1, "producer: it raises NotImplementedError: no Arrow type for it\n"
                                                           "    That was while it was called.\n"))
        self.assertIn("Traceback", ran.stderr)

    def test_a_fault_is_printed_with_its_column_and_its_text_is_kept(self) -> None:
        check = fake_check("arrowpipe: tree /1: NotText at 2: 2, 6", 8)
        words = ("./libproducer.so:bad_text", "--no-lifetimes", "--check", check, "--out", "faults")
        sentence = "Item 2 of column strings has 6 bytes, which are UTF-8 up to byte 2 alone."
        ran = tool(*words)
        self.assertEqual((ran.stdout, ran.returncode), (f"array: tree /1: NotText at 2: 2, 6 (strings: u)\n    {sentence}\n", 8))
        row = next(row for row in ROWS if row.name == "bad_text")
        self.assertEqual((FOLDER / "faults/array.tree").read_text(), expected_text(row))
        ran = tool(*words, "--json")
        self.assertEqual(json.loads(ran.stdout), {
            "part": "array", "result": "unlawful", "fault": "tree /1: NotText at 2: 2, 6", "path": "/1", "rule": "NotText",
            "place": "2", "left": "2", "right": "6", "column": "strings", "format": "u", "sentence": sentence,
            "text": "faults/array-2.tree"})

    def test_no_text_of_what_is_lawful_is_kept(self) -> None:
        ran = tool("./libproducer.so:export_int32", "--check", fake_check("", 0), "--out", "lawful", "--no-lifetimes")
        self.assertEqual((ran.stdout, ran.returncode, os.listdir(FOLDER / "lawful")), ("array: ok\n", 0, []))

    def test_texts_are_written_into_new_files_alone(self) -> None:
        folder, words = FOLDER / "new", ("./libproducer.so:export_int32", "--out", "new")
        folder.mkdir()
        (FOLDER / "elsewhere").write_text("as it was")
        (folder / "array.tree").symlink_to("../elsewhere")
        os.mkfifo(folder / "array-2.tree")
        ran = tool(*words)
        self.assertEqual((ran.stdout, ran.returncode), ("array: new/array-3.tree\n", 0))
        self.assertEqual((FOLDER / "elsewhere").read_text(), "as it was")
        (FOLDER / "link").symlink_to("new")
        ran = tool(words[0], "--out", "link")
        self.assertEqual((ran.stderr, ran.returncode), ("arrow_tree: link is a link\n", 2))

    def test_what_else_the_check_ends_with_is_no_verdict(self) -> None:
        for fault, status, line in (("arrowpipe: input longer than 1073741824 bytes", 5, "input longer than 1073741824 bytes"),
                                    ("arrowpipe: out of memory", 9, "out of memory"),
                                    ("arrowpipe: tree: too many lines", 8, "tree: too many lines"),
                                    ("Killed", 137, f"{FOLDER}/fake ends with status 137")):
            ran = tool("./libproducer.so:export_int32", "--check", fake_check(fault, status), "--no-lifetimes")
            self.assertEqual((ran.stdout, ran.returncode), (f"array: {line}\n", 3))

    def test_no_check_is_believed_untried(self) -> None:
        (FOLDER / "checkout/crates").mkdir(parents=True)
        for name, text in (("arrowpipe", "#!/bin/sh\nsleep 100\n"), ("crates.txt", "")):
            (FOLDER / "checkout" / name).write_text(text)
        (FOLDER / "checkout/arrowpipe").chmod(0o755)
        for check, said in (("/bin/true", "/bin/true is no such checker: of a known text it answers 0, ''"),
                            ("/bin/cat", "/bin/cat is no such checker: of a known text it answers 1, "),
                            ("checkout/arrowpipe", "checkout/arrowpipe isn't built in this checkout: make arrowpipe builds it"),
                            ("none", "none: No such file or directory")):
            ran, released = released_by("./libproducer.so:export_int32", "--check", check)
            self.assertEqual((ran.returncode, ran.stdout, released), (2, "", "0 0 0"))
            self.assertTrue(ran.stderr.startswith(f"arrow_tree: {said}"), ran.stderr)

    def test_wrong_words_have_a_status_of_their_own(self) -> None:
        check = ("--check", fake_check("", 0))
        for words in ([], ["./libproducer.so:export_int32"], ["none", *check], ["none:none", *check], ["./none.so:f", *check],
                      ["./libproducer.so:none", *check], ["os:none", *check], ["os:sep", "--most", "x", *check],
                      ["os:sep", *check], ["os:getcwd", *check], ["os:sep", "--seconds", "0", *check]):
            ran = tool(*words)
            self.assertEqual((ran.returncode, ran.stdout), (2, ""), words)
            self.assertTrue(ran.stderr)
            self.assertNotIn("Traceback", ran.stderr)

    def test_a_module_is_no_library_for_its_name(self) -> None:
        (FOLDER / "acme").mkdir()
        (FOLDER / "acme/so_urces.py").write_text("from capsule_cases import array_capsules as rows\n")
        (FOLDER / "acme/__init__.py").write_text("")
        environment = {**os.environ, "PYTHONPATH": str(HERE), "PRODUCER": str(FOLDER / "libproducer.so")}
        ran = tool("acme.so_urces:rows", "--out", "modules", env=environment)
        self.assertEqual((ran.stdout, ran.returncode, ran.stderr), ("array: modules/array.tree\n", 0, ""))

    def test_an_output_that_cannot_be_written_has_a_status(self) -> None:
        ran, _ = released_by("./libproducer.so:stream_chunks", "--stream", "--out", "/dev/null/none")
        self.assertEqual(ran.returncode, 2, "a folder that can't be made")
        theirs, ours = os.pipe()
        os.close(theirs)
        ran, _ = released_by("./libproducer.so:stream_chunks", "--stream", "--check", fake_check("", 0), stdout=ours)
        os.close(ours)
        self.assertEqual((ran.returncode, ran.stderr), (2, "arrow_tree: BrokenPipeError: [Errno 32] Broken pipe\n"))
        words = f"{sys.executable} {HERE}/arrow_tree.py ./libproducer.so:export_int32 --out"
        for command in (f"{words} closed >&-", f"PYTHONIOENCODING=ascii {words} caf\u00e9", f"{words} full > /dev/full"):
            ran = subprocess.run(["/bin/sh", "-c", command], cwd=FOLDER, stdout=-1, stderr=-1, universal_newlines=True)
            self.assertEqual((ran.returncode, ran.stdout), (2, ""), command)
            self.assertRegex(ran.stderr, "^arrow_tree: .*\n$")

    def test_a_producer_without_end_stops_at_the_bound(self) -> None:
        ran, _ = released_by("./libproducer.so:stream_endless", "--stream", "--out", "endless", "--most", 1 << 20)
        self.assertEqual(ran.returncode, 3)
        self.assertRegex(ran.stdout, r"(?s)chunk 9:.*: more bytes are asked for than --most allows\n$")
        self.assertLess(len(ran.stdout.splitlines()), 70)

    def test_an_end_of_the_tool_ends_what_it_started(self) -> None:
        for number, status in ((signal.SIGTERM, 143), (signal.SIGINT, 130)):
            ours = subprocess.Popen([sys.executable, str(HERE / "arrow_tree.py"), "capsule_cases:never", "--out", "never"],
                                    cwd=FOLDER, stdout=-1, env={**os.environ, "PYTHONPATH": str(HERE), "PIDS": "pids",
                                                                "PRODUCER": str(FOLDER / "libproducer.so")})
            pids = FOLDER / "pids"
            while not (pids.exists() and pids.read_text().endswith("\n")):
                time.sleep(0.01)
            began = time.monotonic()
            ours.send_signal(number)
            self.assertEqual(ours.wait(timeout=20), status)
            self.assertLess(time.monotonic() - began, 10)
            for pid in pids.read_text().split():
                self.assertFalse(Path(f"/proc/{pid}/fd").exists() and os.listdir(f"/proc/{pid}/fd"), "a child is left")
            pids.unlink()
            ours.stdout.close()


class Verdicts(unittest.TestCase):
    """What the built program says of each export."""

    def setUp(self) -> None:
        if not PROGRAM:
            self.skipTest("there is no built program")
        global CHECKED
        beside = [Path(PROGRAM).parent / "arrowtree", Path(PROGRAM).parents[2] / "arrowtree/out/arrowtree"]
        CHECKED = ["--check", PROGRAM, "--arrowtree", next(str(it) for it in beside if it.exists())]

    def test_each_export_has_its_verdict(self) -> None:
        for row in ROWS:
            with self.subTest(row.name):
                printed, status = main_here(f"{FOLDER}/libproducer.so:{row.name}", *CHECKED)
                self.assertRegex(printed, f"^{as_pattern(f'array: {row.verdict}')}\n$")
                self.assertEqual(status, row.status)

    def test_what_cannot_be_written_has_a_status_of_its_own(self) -> None:
        for name, why in UNWRITTEN:
            printed, status = main_here(f"{FOLDER}/libproducer.so:{name}", *CHECKED)
            self.assertRegex(printed, f"^array: {why}( \\(.*\\))?\n$")
            self.assertEqual(status, 3)

    def test_each_stream_has_its_lines_and_is_released_once(self) -> None:
        for name, lines, status, wanted in STREAMS:
            with self.subTest(name):
                ran, released = released_by(f"./libproducer.so:{name}", "--stream", *CHECKED)
                printed = [line for line in ran.stdout.rstrip("\n").split("\n") if line[0] != " "]
                self.assertEqual((printed, ran.returncode), (lines.split("|"), status))
                self.assertEqual(released, wanted)

    def test_a_column_that_is_left_out_silences_no_other(self) -> None:
        tags = "array: tree /3: schema: Format (tags: +vl, a list view)"
        for name, lines, status in (("export_mixed", [tags, "array: ok"], 4),
                                    ("bad_mixed_last", [tags, "array: tree /4: NullCount at 0: 1, 0 (last: i)"], 8),
                                    ("bad_mixed_union", ["array: tree /1: Union (kind: +ud:5,7, a union)", tags], 8),
                                    ("bad_mixed_runs", ["array: tree /2: RunEnds (runs: +r, a run-end encoded array)", tags], 8),
                                    ("bad_union", ["array: tree /: Union (the root: +ud:5,7, a union)"], 8)):
            with self.subTest(name):
                printed, got = main_here(f"{FOLDER}/libproducer.so:{name}", *CHECKED)
                self.assertEqual((printed.splitlines(), got), (lines, status))

    def test_a_test_in_python_fails_with_the_line(self) -> None:
        before = os.environ.get("ARROWPIPE")
        os.environ["ARROWPIPE"] = str(PROGRAM)
        assert_lawful(f"{FOLDER}/libproducer.so:export_many")
        with self.assertRaisesRegex(AssertionError, "NullCount(?s:.*)The null count of column floats is 0"):
            assert_lawful(f"{FOLDER}/libproducer.so:bad_null_count", str(PROGRAM))
        os.environ.update({"ARROWPIPE": before} if before else {})

    def test_a_kept_text_is_refused_again(self) -> None:
        tool("./libproducer.so:stream_spoilt_chunk", "--stream", *CHECKED, "--out", "again")
        self.assertEqual(os.listdir(FOLDER / "again"), ["chunk-1.tree"])
        ran = subprocess.run([PROGRAM, "--check"], input=(FOLDER / "again/chunk-1.tree").read_bytes(), stderr=-1)
        self.assertEqual((ran.returncode, ran.stderr), (8, b"arrowpipe: tree /0: NullCount at 0: 0, 1\n"))


    def test_the_examples_of_the_page_are_true(self) -> None:
        room = FOLDER / "page"
        room.mkdir()
        for name in ("tools", "examples"):
            (room / name).symlink_to(HERE.parent / name)
        for name, program in zip(("arrowpipe", "arrowtree"), CHECKED[1::2]):
            (room / name).symlink_to(program)
        page = (HERE.parent / "docs/CHECK.md").read_text()
        runs = re.findall(r"^    \$ (.*)\n((?:    (?!\$ ).*\n)*)", page, re.MULTILINE)
        for command, printed in runs:
            with self.subTest(command):
                ran = subprocess.run(command, shell=True, cwd=room, stdout=-1, stderr=subprocess.STDOUT, universal_newlines=True,
                                     env={**os.environ, "PYTHONDONTWRITEBYTECODE": "1"})
                self.assertEqual(ran.stdout, re.sub("^    ", "", printed, flags=re.MULTILINE))
        self.assertGreater(len(runs), 8)

    def test_each_example_of_a_rule_is_a_verdict(self) -> None:
        page = (HERE.parent / "docs/CHECK.md").read_text()
        verdicts = [row.verdict for row in ROWS] + [line for _, lines, *_ in STREAMS for line in lines.split("|")]
        examples = re.findall(r"^\| [A-Z]\w+ \|.*? \| `(.*?)` \|", page, re.MULTILINE)
        self.assertEqual(len(examples), 17)
        for example in examples:
            self.assertIn(example, verdicts)


def compiled() -> ctypes.CDLL:
    library = FOLDER / "libproducer.so"
    command = ["cc", "-std=c11", "-Wall", "-Wextra", "-Werror", "-O1", "-g", "-shared", "-fPIC", str(HERE / "producer.c")]
    subprocess.run([*command, "-o", str(library)], check=True)
    return ctypes.CDLL(str(library))


LIBRARY = compiled()


def main() -> int:
    global PROGRAM
    parser = argparse.ArgumentParser(description=__doc__)
    parser.add_argument("program", nargs="?")
    parser.add_argument("--quiet", action="store_true", help="print only what fails")
    parser.add_argument("--no-program", action="store_true", help="compare no verdicts, whatever is built")
    words = parser.parse_args()
    built = [words.program] if words.program else ["out/arrowpipe", "crates/arrowpipe/out/arrowpipe"]
    built = [] if words.no_program else built
    PROGRAM = next((str((HERE.parent / it).resolve()) for it in built if os.access(HERE.parent / it, os.X_OK)), None)
    if words.program and not PROGRAM:
        print(f"validator: there is no program {words.program}")
        return 1
    suite = unittest.defaultTestLoader.loadTestsFromModule(sys.modules[__name__])
    result = unittest.TextTestRunner(verbosity=0, stream=io.StringIO()).run(suite)
    for test, trace in result.failures + result.errors:
        print(f"validator: {test}\n{trace}")
    failed, skipped = len(result.failures) + len(result.errors), len(result.skipped)
    passed = result.testsRun - skipped - len({str(test).split(" [")[0] for test, _ in result.failures + result.errors})
    if failed or not words.quiet:
        print(f"validator: {passed} tests passed, {failed} failures, {skipped} skipped"
              f"{'' if PROGRAM else ' (without a program no verdict is compared)'}; {len(ROWS)} exports, "
              f"{len(UNWRITTEN)} that can't be written, {len(STREAMS)} streams, {SPOILT_MEMORIES} spoilt memories")
    return 1 if failed or passed < 1 else 0


if __name__ == "__main__":
    sys.exit(main())
