"""Compares what a consumer answers with what it was given: by the rows that arrowtree writes of both."""
import ctypes
import io
import subprocess
from typing import Any, Dict, Iterator, List, Optional, Sequence, Union

from . import layout
from .abi import ArrowArray, ArrowSchema, call, is_live, release, room
from .exports import Column, Stream
from .source import Export

MOST, MOST_CHUNKS = 1 << 26, 1000  # bytes of an answer, and its chunks


def token(text: Union[bytes, str, None]) -> str:
    return layout.token(text.encode() if isinstance(text, str) else text)


def schema_lines(column: Column) -> List[str]:
    below = [*column.children, *([column.dictionary] if column.dictionary else [])]
    head = (f"S {token(column.format)} {token(column.name)} {column.flags} {len(column.children)} "
            f"{column.dictionary is not None:d} {token(column.metadata)}")
    return [head, *(line for each in below for line in schema_lines(each))]


def array_lines(column: Column) -> List[str]:
    below = [*column.children, *([column.dictionary] if column.dictionary else [])]
    head = (f"A {column.length} {column.nulls} {column.offset} {len(column.buffers)} {len(column.children)} "
            f"{column.dictionary is not None:d}")
    return [head, *("B ~" if data is None else f"B ={data.hex()}" for data in column.buffers),
            *(line for each in below for line in array_lines(each))]


def text_of(type: Column, column: Column) -> bytes:
    """The text of a description, with whole buffers ("Trees as texts" of docs/FORMATS.md)."""
    return "\n".join(["tree 1", *schema_lines(type), *array_lines(column), ""]).encode()


def texts_of(given: Any) -> List[bytes]:
    if isinstance(given, Stream):
        return [text_of(given.type, each) for each in given.chunks]
    return [text_of(given, given)]


def read(export: Export) -> Dict[str, Any]:
    """The texts of what was answered, and what its stream failed by. Then it is released."""
    said: Dict[str, Any] = {"texts": [], "failed": "", "unlawful": ""}
    try:
        if not all(map(is_live, export.owned())):
            said["unlawful"] = "it is released"
        elif export.stream:
            read_stream(export.stream, said)
        else:
            said["texts"].append(text_at(export.schema, export.array))
    except layout.Refused as why:
        said["unlawful"] = why.said["fault"]
    for each in export.owned():
        if not release(each):
            said["unlawful"] = f"the release of its {each.form.__name__} leaves that unreleased"
    return said


def text_at(schema: Any, array: Any) -> str:
    """A text, read directly: what was released while it was answered with is seen by that."""
    out = io.BytesIO()
    places = [ctypes.addressof(each) if each else 0 for each in (schema, array)]
    layout.Writer(MOST, direct=True).tree(*places, out, is_whole=True)
    return out.getvalue().decode()


def read_stream(stream: Any, said: Dict[str, Any]) -> None:
    schema, array = room(ArrowSchema), room(ArrowArray)
    code = call(stream, "get_schema", schema)
    while not code and len(said["texts"]) < MOST_CHUNKS:
        code = call(stream, "get_next", array)
        if code or not is_live(array):
            break
        said["texts"].append(text_at(schema, array))
        release(array)
    release(schema)
    said["failed"] = f"errno {code}" if code else ""


def rows_of(program: str, texts: Sequence[bytes]) -> Optional[List[bytes]]:
    """The values of trees one behind another, or None where the program doesn't show one of them."""
    rows: List[bytes] = []
    for text in texts:
        root = text[:20].split(b"\n", 1)[1]
        word = ["union"] if root.startswith(b"S =+u") else ["flat"] if root.startswith(b"S =+r") else []
        ran = subprocess.run([program, *word], input=text, stdout=subprocess.PIPE, stderr=subprocess.DEVNULL)
        if ran.returncode:
            return None
        rows += ran.stdout.split(b"\n")[1:-1]
    return rows


def differences(given: Any, said: Dict[str, Any], rows: str, check: str) -> Iterator[Dict[str, Any]]:
    """The rule that an answer breaks, or that it can't be told whether it does."""
    fails = isinstance(given, Stream) and bool(given.error)
    got, want = [text.encode() for text in said["texts"]], texts_of(given)
    if said["unlawful"]:
        yield {"rule": "UnlawfulAnswer", "what": "the answer", "detail": said["unlawful"]}
    elif fails != bool(said["failed"]):
        how = f"its stream fails with {said['failed']}" if said["failed"] else "its stream doesn't fail"
        yield {"rule": "OtherValues", "what": "the answer", "detail": how}
    elif got != want:
        yield from compared(rows_of(rows, got), rows_of(rows, want), got, check)


def compared(got: Any, want: Any, texts: Sequence[bytes], check: str) -> Iterator[Dict[str, Any]]:
    if want is None:
        yield {"result": "not written", "fault": "what was given has a type whose values arrowtree doesn't show"}
    elif got is None:
        yield {"rule": "UnlawfulAnswer", "what": "the answer", "detail": fault_of(check, texts)}
    elif got != want:
        place = next((i for i, pair in enumerate(zip(want, got)) if pair[0] != pair[1]), min(len(want), len(got)))
        row, was = ("missing" if place >= len(each) else each[place].decode(errors="replace")[:40]
                    for each in (got, want))
        yield {"rule": "OtherValues", "what": "the answer", "detail": f"row {place} is {row} and was {was}"}


def fault_of(check: str, texts: Sequence[bytes]) -> str:
    """What the checker says of the first text that it refuses."""
    for text in texts if check else []:
        ran = subprocess.run([check, "--check"], input=text, stdout=subprocess.DEVNULL, stderr=subprocess.PIPE)
        if ran.returncode:
            return ran.stderr.decode(errors="replace").strip().replace("arrowpipe: ", "")
    return "arrowtree refuses it"
