"""Lawful exports that are hard to take, as descriptions. consumer.py hands each of them to a consumer."""
import struct
from dataclasses import dataclass, replace
from typing import Any, Dict, Iterable, Optional, Sequence

NULLABLE, ORDERED, SORTED = 2, 1, 4  # "The ArrowSchema structure", flags


@dataclass(frozen=True)
class Column:
    """A node of a schema with that of its array. A buffer is bytes, or None where it is absent."""
    format: str
    length: int
    buffers: Sequence[Optional[bytes]]
    children: Sequence["Column"] = ()
    name: Optional[str] = ""
    nulls: int = 0
    offset: int = 0
    flags: int = NULLABLE
    metadata: Optional[bytes] = None
    dictionary: Optional["Column"] = None


@dataclass(frozen=True)
class Stream:
    """Chunks of one type, and what a call answers in place of the end or, where `fails_at_once`, of the schema."""
    chunks: Sequence[Column]
    type: Column
    error: int = 0
    last_error: Optional[str] = None
    fails_at_once: bool = False


def bits(marks: str) -> bytes:
    """A bitmap, the first item in the lowest bit ("Validity bitmaps")."""
    return bytes(int(marks[i:i + 8][::-1], 2) for i in range(0, len(marks), 8))


def packed(code: str, *values: Any) -> bytes:
    return struct.pack(f"<{len(values)}{code}", *values)


def flat(format: str, data: bytes, length: int, valid: Optional[str] = None, **more: Any) -> Column:
    """A column of one buffer of data. `valid` has a 1 for each item that isn't null."""
    offset = more.get("offset", 0)
    nulls = valid[offset:offset + length].count("0") if valid else 0
    return Column(format, length, [valid and bits(valid), data], **{"nulls": nulls, **more})


def ints(*values: int, **more: Any) -> Column:
    return flat("i", packed("i", *values), **{"length": len(values), **more})


def ends(format: str, lengths: Iterable[int], first: int = 0) -> bytes:
    """Offsets of items of these lengths."""
    places = [first]
    for length in lengths:
        places.append(places[-1] + length)
    return packed("q" if format[-1] in "UZL" else "i", *places)


def texts(format: str, values: Sequence[bytes], valid: Optional[str] = None, skip: bytes = b"", **more: Any) -> Column:
    """Texts or bytes behind offsets. `skip` comes before the first text."""
    column = flat(format, b"", **{"length": len(values), **more}, valid=valid)
    data = [ends(format, map(len, values), len(skip)), skip + b"".join(values)]
    return replace(column, buffers=[column.buffers[0], *data])


def views(format: str, buffers: Sequence[bytes], items: Sequence[Any], valid: Optional[str] = None,
          **more: Any) -> Column:
    """Views: an item is bytes that stand in the view, or a buffer's number, a place in it and a length."""
    data = b""
    for item in items:
        if isinstance(item, bytes):
            data += struct.pack("<i12s", len(item), item)
        else:
            number, place, length = item
            data += struct.pack("<i4sii", length, buffers[number][place:place + 4], number, place)
    column = flat(format, data, **{"length": len(items), **more}, valid=valid)
    return replace(column, buffers=[*column.buffers, *buffers, packed("q", *map(len, buffers))])


def lists(format: str, lengths: Sequence[int], child: Column, valid: Optional[str] = None, first: int = 0,
          **more: Any) -> Column:
    return flat(format, ends(format, lengths, first), **{"length": len(lengths), **more}, valid=valid, children=[child])


def rows(*children: Column, valid: Optional[str] = None, **more: Any) -> Column:
    """A struct, as long as its children unless said otherwise."""
    length = more.pop("length", children[0].length if children else 0)
    column = flat("+s", b"", length, valid, children=children, **more)
    return replace(column, buffers=column.buffers[:1])


def named(**columns: Column) -> Sequence[Column]:
    return [replace(column, name=name) for name, column in columns.items()]


def pairs(*values: bytes) -> bytes:
    """Metadata of keys and values in turn ("ArrowSchema.metadata")."""
    return packed("i", len(values) // 2) + b"".join(packed("i", len(each)) + each for each in values)


def with_dictionary(indices: Column, dictionary: Column, **more: Any) -> Column:
    return replace(indices, dictionary=dictionary, **more)


def map_of(lengths: Sequence[int], keys: Column, values: Column, **more: Any) -> Column:
    entries = rows(replace(keys, name="key", flags=0), replace(values, name="value"), name="entries", flags=0)
    return lists("+m", lengths, entries, **more)


def deep(levels: int) -> Column:
    return rows(deep(levels - 1), name="level") if levels else ints(1, 2)


WORDS = texts("u", [b"one", b"", b"\xc3\xa9t\xc3\xa9", b"four", b"five"], "10111")
COLOURS = texts("u", [b"red", b"green", b"blue"])
LONG = [b"a text of more than twelve bytes", b"", b"another one that is as long as it is dull"]
WIDE = "l L g tdm ttu ttn tss: tsm:UTC tsu:Asia/Tokyo tsn:+09:00 tDs tDm tDu tDn tiD"
TYPES = {**dict.fromkeys("cC", 1), **dict.fromkeys("sSe", 2), **dict.fromkeys("i I f tdD tts ttm tiM".split(), 4),
         **dict.fromkeys(WIDE.split(), 8), "tin": 16, "d:38,10": 16, "d:76,-3,256": 32, "w:5": 5}


def all_types() -> Column:
    """A column of each flat type that has items of one size, and of the others."""
    columns = [flat(format, bytes(range(1, 3 * size + 1)), 3, "101", name=format) for format, size in TYPES.items()]
    return rows(*columns, *[texts(format, [b"x", b"", b"yz"], "011", name=format) for format in "uzUZ"],
                *[views(format, [LONG[0]], [b"x", (0, 2, 20), b""], "110", name=format) for format in ("vu", "vz")],
                flat("b", bits("101"), 3, "110", name="b"), Column("n", 3, [], name="n", nulls=3))


ARRAYS: Dict[str, Column] = {
    "int32": ints(1, -2, 3, 2147483647, -2147483648, flags=0),
    "nulls": ints(1, 2, 3, 4, 5, valid="10101"),
    "uncounted nulls": ints(1, 2, 3, 4, 5, valid="10100", nulls=-1),
    "uncounted nulls, no validity": ints(1, 2, 3, nulls=-1),
    "validity without a null": ints(1, 2, 3, valid="111"),
    "only nulls": ints(7, 8, 9, valid="000"),
    "a window": ints(9, 9, 9, 1, 2, 3, 9, 9, 9, valid="000101000", offset=3, length=3),
    "a window of bits": flat("b", bits("1111111010011111"), 6, "0000000110111000", offset=6),
    "a window of nothing": ints(1, 2, 3, valid="101", offset=3, length=0),
    "no rows, absent buffers": Column("i", 0, [None, None]),
    "no rows, empty buffers": Column("i", 0, [b"", b""]),
    "no texts, absent offsets": Column("u", 0, [None, None, None]),
    "no texts, one offset": Column("u", 0, [None, packed("i", 0), None]),
    "no lists, absent offsets": Column("+l", 0, [None, None], [Column("i", 0, [None, None], name="item")]),
    "no views": Column("vu", 0, [None, None, None]),
    "texts": WORDS,
    "a window of texts": replace(WORDS, offset=1, length=3, nulls=1),
    "texts behind others": texts("u", [b"ab", b"c"], skip=b"\xff\xfeskipped"),
    "empty texts": texts("u", [b"", b"", b""]),
    "long texts": texts("U", [bytes([65 + i % 26]) * (i * 997 % 5000) for i in range(60)]),
    "bytes": texts("z", [b"\0\xff", b"", b"\n"], "110"),
    "large bytes": texts("Z", [b"\0\xff", b"", b"\n"], "011", offset=1, length=2),
    "many rows": flat("l", packed("q", *range(-35000, 35000)), 70000, "1101" * 17500),
    "views within": views("vu", [], [b"short", b"", b"twelve bytes"], "111"),
    "views over buffers": views("vu", [LONG[0], b"", LONG[2] + LONG[0]],
                                [(0, 0, 32), b"in", (2, 5, 30), (2, 0, 73), b""], "11101", offset=1, length=4),
    "binary views": views("vz", [bytes(range(40))], [(0, 1, 39), b"\0\xff", b""], "101"),
    "no columns": rows(length=3),
    "no columns, no rows": rows(),
    "a table": rows(*named(number=ints(1, 2, 3, valid="110"), text=texts("u", [b"a", b"b", b"c"], flags=0))),
    "a window of a table": rows(*named(a=ints(0, 1, 2, 3, 4, 5, 6, valid="1111011", offset=2, length=5),
                                       b=replace(WORDS, offset=0, length=5)), offset=1, length=3),
    "children longer than the rows": rows(*named(a=ints(1, 2, 3, 4, 5), b=WORDS), length=2),
    "null rows": rows(*named(a=ints(1, 2, 3), b=texts("u", [b"x", b"y", b"z"], "110")), valid="101"),
    "structs in structs": rows(rows(rows(ints(1, 2, name="c"), name="b", valid="10"), name="a", offset=0, valid="11")),
    "32 levels": deep(31),
    "lists": lists("+l", [2, 0, 1, 3], ints(1, 2, 3, 4, 5, 6, valid="110111", name="item"), "1011"),
    "a null list with items": lists("+l", [1, 2, 1], ints(1, 8, 9, 2, name="item"), "101"),
    "a window of lists": lists("+l", [2, 1, 2, 1], ints(0, 0, 9, 9, 1, 2, 3, 9, offset=2, length=6, name="item"),
                               offset=1, length=2),
    "large lists": lists("+L", [1, 2], ints(1, 2, 3, name="item")),
    "lists in lists": lists("+l", [2, 0, 1], lists("+l", [1, 3, 1], WORDS, "101", name="inner"), "101"),
    "fixed lists": Column("+w:2", 3, [bits("101")], [ints(1, 2, 3, 4, 5, 6, valid="111011", name="item")], nulls=1),
    "a window of fixed lists": Column("+w:2", 2, [None], [ints(9, 1, 2, 3, 4, 5, 6, offset=1, length=6)], offset=1),
    "fixed lists of nothing": Column("+w:0", 4, [None], [Column("i", 0, [None, None], name="item")]),
    "maps": map_of([2, 0, 1], texts("u", [b"k", b"l", b"k"]), ints(1, 2, 3, valid="101"), valid="101",
                   flags=NULLABLE | SORTED),
    "a dictionary": with_dictionary(flat("c", bytes([2, 0, 1, 0, 9]), 5, "11110"), COLOURS),
    "a window of a dictionary": with_dictionary(flat("S", packed("H", 9, 0, 1, 9), 2, offset=1),
                                                replace(COLOURS, offset=1, length=2), flags=NULLABLE | ORDERED),
    "null entries": with_dictionary(flat("l", packed("q", 0, 1, 2), 3), texts("u", [b"a", b"", b"b"], "101")),
    "a dictionary of nothing": with_dictionary(Column("i", 0, [None, None]), Column("u", 0, [None, None, None])),
    "dictionaries within": rows(lists("+l", [1, 2], with_dictionary(
        flat("C", bytes([1, 0, 2]), 3), COLOURS, name="item"), name="c")),
    "every flat type": all_types(),
    "nulls alone": Column("n", 4, [], nulls=4),
    "items of no bytes": Column("w:0", 3, [bits("101"), None], nulls=1),
    "floats": rows(*named(half=flat("e", packed("H", 0x7e01, 0x8000, 1), 3),
                          single=flat("f", packed("I", 0x7fc00001, 1 << 31, 1), 3),
                          double=flat("g", packed("Q", 0x7ff8000000000001, 1 << 63, 1), 3))),
    "short decimals": rows(*named(a=flat("d:9,2,32", packed("i", 5, -7), 2), b=flat("d:18,2,64", packed("q", 5, -7), 2))),
    "a dense union": Column("+ud:5,7", 2, [bytes([7, 5, 7]), packed("i", 0, 1, 1)],
                            [ints(10, 11, name="t"), texts("u", [b"hi", b"ho"], "10", name="w")], offset=1),
    "a sparse union": Column("+us:0,1", 3, [bytes([0, 1, 0])],
                             named(t=ints(1, 2, 3), w=texts("u", [b"a", b"b", b"c"]))),
    "run ends": Column("+r", 4, [], named(run_ends=ints(2, 5, 7, flags=0), values=texts("u", [b"a", b"", b"b"], "101")),
                       offset=1),
    "list views": Column("+vl", 3, [bits("101"), packed("i", 1, 9, 0), packed("i", 1, 0, 2)], named(item=ints(10, 11)),
                         nulls=1),
    "metadata": rows(ints(1, 2, name="caf\u00e9\n%", metadata=pairs(b"ARROW:extension:name", b"acme.id", b"", b"")),
                     metadata=pairs(b"key\0with", b"\xff", b"key", b"")),
    "no names": rows(ints(1, name=None), ints(2, name=""), ints(3, name=""), name=None),
    "1,000 columns": rows(*[ints(i, -i, valid="10", name=f"c{i}") for i in range(1000)]),
}
TABLE = ARRAYS["a table"]
STREAMS: Dict[str, Stream] = {
    "no chunk": Stream([], TABLE),
    "one chunk": Stream([TABLE], TABLE),
    "many chunks": Stream([replace(TABLE, length=2),
                           rows(*named(number=Column("i", 0, [None, None]), text=Column("u", 0, [None] * 3))),
                           replace(TABLE, offset=1, length=1), replace(TABLE, offset=1, length=2), TABLE, TABLE, TABLE],
                          TABLE),
    "a chunk of no rows": Stream([replace(TABLE, length=0)], TABLE),
    "another dictionary in each chunk": Stream(
        [rows(replace(with_dictionary(flat("c", bytes([1, 0]), 2), texts("u", each)), name="d")) for each in
         ([b"a", b"b"], [b"b", b"a", b"c"])], rows(replace(ARRAYS["a dictionary"], name="d"))),
    "numbers without a table": Stream([ints(1, 2, valid="01"), ints(3)], ints()),
    "no columns": Stream([rows(length=2), rows(length=1)], rows()),
    "a wide table": Stream([ARRAYS["1,000 columns"]], ARRAYS["1,000 columns"]),
    "tables with windows and lists": Stream(
        [rows(replace(ARRAYS[name], name="l")) for name in ("lists", "a window of lists")],
        rows(replace(ARRAYS["lists"], name="l"))),
    "a failure at once": Stream([], TABLE, 5, "there is no such table", fails_at_once=True),
    "a failure before the first chunk": Stream([], TABLE, 5, "the disk is gone"),
    "a failure in mid-stream": Stream([TABLE, TABLE], TABLE, 12, "out of memory \u2014 d\u00e9sol\u00e9\n\x1b[31m"),
    "a failure without a text": Stream([TABLE], TABLE, 22),
}
