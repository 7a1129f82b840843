"""Hands an export to a consumer: to a function in C, or as an object of the PyCapsule Interface to a callable."""
import ctypes
import os
from typing import Any, Callable, NamedTuple, Optional, Tuple

from .abi import release, room, room_at
from .exports import Stream
from .lent import FORMS, Held, Lender
from .source import METHODS, Broken, Export, Source

CAPSULES = {"schema": b"arrow_schema", "array": b"arrow_array", "stream": b"arrow_array_stream"}
NEW = ctypes.PYFUNCTYPE(ctypes.py_object, ctypes.c_void_p, ctypes.c_char_p, ctypes.c_void_p)(
    ("PyCapsule_New", ctypes.pythonapi))
NAME_OF = ctypes.PYFUNCTYPE(ctypes.c_char_p, ctypes.c_void_p)(("PyCapsule_GetName", ctypes.pythonapi))
PLACE_OF = ctypes.PYFUNCTYPE(ctypes.c_void_p, ctypes.c_void_p, ctypes.c_char_p)(
    ("PyCapsule_GetPointer", ctypes.pythonapi))


class Answer(NamedTuple):
    refused: str = ""  # why the consumer didn't take the export
    export: Optional[Export] = None  # what it answered with


@ctypes.PYFUNCTYPE(None, ctypes.c_void_p)
def destroy(capsule: int) -> None:
    """A capsule's destructor: releases what nobody has taken out of it."""
    name = NAME_OF(capsule)
    kind = next(kind for kind, each in CAPSULES.items() if each == name)
    release(room_at(FORMS[kind], PLACE_OF(capsule, name)))


def lend(lender: Lender, kind: str, given: Any) -> Held:
    """A structure lent in a place of its own."""
    place = lender.place(kind)
    held = lender.lend_stream(given, place) if kind == "stream" else lender.lend(kind, given, place, kind)
    held.is_ours = True
    return held


class Lent:
    """What objects over an export have in common. Each call of theirs lends it anew."""

    def __init__(self, lender: Lender, given: Any) -> None:
        self.lender, self.given = lender, given

    def capsule(self, kind: str) -> Any:
        return NEW(lend(self.lender, kind, self.given).place, CAPSULES[kind], ctypes.cast(destroy, ctypes.c_void_p))


class LentArray(Lent):
    def __arrow_c_schema__(self) -> Any:
        return self.capsule("schema")

    def __arrow_c_array__(self, requested_schema: Any = None) -> Tuple[Any, Any]:
        return self.capsule("schema"), self.capsule("array")


class LentStream(Lent):
    def __arrow_c_stream__(self, requested_schema: Any = None) -> Any:
        return self.capsule("stream")


def to_c(function: Any, lender: Lender, given: Any, answers: bool) -> Answer:
    """int FUNCTION(struct ArrowSchema *, struct ArrowArray *) or (struct ArrowArrayStream *), which answers 0, or an
    errno where it refuses. With `answers` as many structures come behind, which it fills in."""
    kinds = ["stream"] if isinstance(given, Stream) else ["schema", "array"]
    places = [lend(lender, kind, given).place for kind in kinds]
    answered = [room(FORMS[kind]) for kind in kinds] if answers else []
    function.restype, function.argtypes = ctypes.c_int, [ctypes.c_void_p] * len(places + answered)
    code = function(*places, *map(ctypes.addressof, answered))
    if code:
        return Answer(f"it answers {code}: {os.strerror(code)}")
    return Answer("", Export(answered) if answers else None)


def to_python(function: Callable, lender: Lender, given: Any, answers: bool) -> Answer:
    """A callable of one object, which refuses by an exception. It may answer with such an object."""
    try:
        answer = function((LentStream if isinstance(given, Stream) else LentArray)(lender, given))
        if any(hasattr(answer, each) for each in METHODS):
            return Answer("", Source("the answer", thing=answer).make())
    except Broken as why:
        lender.record.note(rule="UnlawfulAnswer", what="answer", detail=why.what)
    except Exception as why:
        return Answer(f"it raises {type(why).__name__}: {why}")
    return Answer("it answers with no object of the PyCapsule Interface" if answers else "")


def consumer(words: str) -> Callable[[Lender, Any, bool], Answer]:
    """What LIBRARY.so:FUNCTION or MODULE:CALLABLE names."""
    source = Source(words)
    source.load()
    return lambda *given: (to_c if source.is_library else to_python)(source.thing, *given)
