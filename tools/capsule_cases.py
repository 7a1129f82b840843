"""Objects of the PyCapsule Interface, made by ctypes over producer.c: lawful ones, and such as break a rule, by its name."""
import ctypes
import os
import threading
import time
from typing import Any, Dict, List, Tuple

from arrow_check import abi

LIBRARY = ctypes.CDLL(os.environ["PRODUCER"])
NEW = ctypes.PYFUNCTYPE(ctypes.py_object, ctypes.c_void_p, ctypes.c_char_p, ctypes.c_void_p)(("PyCapsule_New", ctypes.pythonapi))
NAME = ctypes.PYFUNCTYPE(ctypes.c_char_p, ctypes.c_void_p)(("PyCapsule_GetName", ctypes.pythonapi))
PLACE = ctypes.PYFUNCTYPE(ctypes.c_void_p, ctypes.c_void_p, ctypes.c_char_p)(("PyCapsule_GetPointer", ctypes.pythonapi))
held: Dict[int, Any] = {}
DESTRUCTOR = ctypes.PYFUNCTYPE(None, ctypes.c_void_p)


def taken(capsule: int) -> Any:
    return held.pop(PLACE(capsule, NAME(capsule)))


@DESTRUCTOR
def lawful(capsule: int) -> None:
    abi.release(taken(capsule))


@DESTRUCTOR
def forgets(capsule: int) -> None:
    taken(capsule)


@DESTRUCTOR
def twice(capsule: int) -> None:
    owned = taken(capsule)
    callback = owned[-2]
    abi.release(owned)
    if callback:
        owned[-2] = callback
        ctypes.CFUNCTYPE(None, ctypes.c_void_p)(callback)(ctypes.addressof(owned))


@DESTRUCTOR
def overwrites(capsule: int) -> None:
    """Overwrites the first column's data, whoever has them now."""
    owned = taken(capsule)
    if owned.form is abi.ArrowArray and not abi.is_live(owned):
        child = ctypes.c_int64.from_address(owned[6]).value
        data = ctypes.c_int64.from_address(abi.room_at(abi.ArrowArray, child)[5] + 8).value
        ctypes.memset(data, 7, 4)
    abi.release(owned)


def filled(function: str = "export_float32_utf8") -> Tuple[Any, Any]:
    schema, array = abi.room(abi.ArrowSchema), abi.room(abi.ArrowArray)
    getattr(LIBRARY, function)(ctypes.byref(schema), ctypes.byref(array))
    return schema, array


def capsule(owned: Any, name: bytes, destructor: Any = lawful) -> Any:
    held[ctypes.addressof(owned)] = owned
    return NEW(ctypes.addressof(owned), name, ctypes.cast(destructor, ctypes.c_void_p) if destructor else None)


def both(destructor: Any = lawful, names: Tuple[bytes, bytes] = (b"arrow_schema", b"arrow_array")) -> Tuple[Any, Any]:
    schema, array = filled()
    return capsule(schema, names[0], destructor), capsule(array, names[1], destructor)


def stream(name: bytes = b"arrow_array_stream", destructor: Any = lawful) -> Any:
    made = abi.room(abi.ArrowArrayStream)
    LIBRARY.stream_chunks(ctypes.byref(made))
    return capsule(made, name, destructor)


def schema(name: bytes = b"arrow_schema") -> Any:
    made, array = filled()
    abi.release(array)
    return capsule(made, name)


class Gives:
    """An object with one of the three methods."""

    def __init__(self, **methods: Any) -> None:
        for name, act in methods.items():
            setattr(self, f"__arrow_c_{name}__", act)


class OneShot:
    """Gives its chunks once."""

    def __init__(self) -> None:
        self.is_left = True

    def __arrow_c_stream__(self, requested_schema: Any = None) -> Any:
        if not self.is_left:
            raise ValueError("it has been read")
        self.is_left = False
        return stream()


array_capsules, stream_capsule, schema_capsule = Gives(array=both), Gives(stream=stream), Gives(schema=schema)
one_shot = OneShot()
CapsuleCount_one = Gives(array=lambda: both()[0])
CapsuleCount_three = Gives(array=lambda: both() + (schema(),))
CapsuleCount_tuple = Gives(stream=lambda: (stream(),))
CapsuleType_none = Gives(stream=lambda: None)
CapsuleType_numbers = Gives(array=lambda: (1, 2))
CapsuleName_swapped = Gives(array=lambda: both()[::-1])
CapsuleName_other = Gives(stream=lambda: stream(b"arrow_arraystream"))
CapsuleName_schema = Gives(schema=lambda: schema(b"schema"))
CapsuleLeft_none = Gives(array=lambda: both(None))
CapsuleLeft_forgets = Gives(stream=lambda: stream(destructor=forgets))
CapsuleLeft_twice = Gives(array=lambda: both(twice))
CapsuleTaken_written = Gives(array=lambda: both(overwrites))
kept: List[Any] = []


def array_addresses() -> Tuple[int, int]:
    kept[:] = filled()
    return ctypes.addressof(kept[0]), ctypes.addressof(kept[1])


def stream_address() -> int:
    kept[:] = [abi.room(abi.ArrowArrayStream)]
    LIBRARY.stream_chunks(ctypes.byref(kept[0]))
    return ctypes.addressof(kept[0])


def no_export() -> Any:
    raise NotImplementedError("no Arrow type for it")


def never() -> Any:
    """Doesn't end, in two processes."""
    child = os.fork()
    if child:
        with open(os.environ["PIDS"], "w") as file:
            file.write(f"{os.getpid()} {child}\n")
    while True:
        time.sleep(10)


def in_threads() -> Any:
    """Exports of a module that has a thread of its own."""
    return array_capsules


if os.environ.get("THREADS"):
    threading.Thread(target=time.sleep, args=(100,), daemon=True).start()
