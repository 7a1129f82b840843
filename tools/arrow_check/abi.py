"""The three structures of the interface, in memory of ours: made, released, moved and asked."""
import ctypes
from collections import namedtuple
from typing import Any

ArrowSchema = namedtuple("ArrowSchema", "format name metadata flags n_children children dictionary release data")
ArrowArray = namedtuple(
    "ArrowArray", "length null_count offset n_buffers n_children buffers children dictionary release data")
ArrowArrayStream = namedtuple("ArrowArrayStream", "get_schema get_next get_last_error release data")
GARBAGE = 0x5A5A5A5A5A5A5A5A  # what is left where a structure was moved away


def room(form: Any) -> Any:
    """A structure of ours, of zeros, as its members by number; the last but one is its release callback."""
    made = (ctypes.c_int64 * len(form._fields))()
    made.form = form
    return made


def room_at(form: Any, address: int) -> Any:
    """A structure that is anybody's."""
    made = (ctypes.c_int64 * len(form._fields)).from_address(address)
    made.form = form
    return made


def is_live(owned: Any) -> bool:
    return bool(owned[-2])


def release(owned: Any) -> bool:
    """Releases what is ours by its own callback; whether that marked it released ("Release callback semantics")."""
    if not is_live(owned):
        return True
    ctypes.CFUNCTYPE(None, ctypes.c_void_p)(owned[-2])(ctypes.addressof(owned))
    marked = not is_live(owned)
    owned[-2] = 0
    return marked


def moved(owned: Any, spoils: bool = False) -> Any:
    """A structure of ours, moved ("Moving an array"): its old place is marked, and with `spoils` overwritten."""
    made = room(owned.form)
    made[:] = list(owned)
    if spoils:
        owned[:] = [GARBAGE] * len(owned)
    owned[-2] = 0
    return made


def call(stream: Any, name: str, out: Any) -> int:
    """What a stream's callback answers that fills a structure in."""
    form = ctypes.CFUNCTYPE(ctypes.c_int, ctypes.c_void_p, ctypes.c_void_p)
    return int(form(getattr(ArrowArrayStream(*stream), name))(ctypes.addressof(stream), ctypes.addressof(out)))


def last_error(stream: Any) -> int:
    """Where a stream says that the text of its last error is, 0 for none."""
    callback, form = ArrowArrayStream(*stream).get_last_error, ctypes.CFUNCTYPE(ctypes.c_void_p, ctypes.c_void_p)
    return (form(callback)(ctypes.addressof(stream)) or 0) if callback else 0
