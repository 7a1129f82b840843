"""What is to be checked: a function of a shared library, or an object of Python, and the structures that it gives."""
import ctypes
import importlib
import os
import re
import sys
from typing import Any, List, Optional, Tuple

from .abi import ArrowArray, ArrowArrayStream, ArrowSchema, moved, release, room, room_at
from .checker import Unusable
from .layout import shown

FORMS = {"arrow_schema": ArrowSchema, "arrow_array": ArrowArray, "arrow_array_stream": ArrowArrayStream}
METHODS = {"__arrow_c_array__": ("arrow_schema", "arrow_array"), "__arrow_c_stream__": ("arrow_array_stream",),
           "__arrow_c_schema__": ("arrow_schema",)}
LIBRARY = re.compile(r"/|\.so(\.\d+)*$")
WANTED = "an object with __arrow_c_array__, __arrow_c_stream__ or __arrow_c_schema__, a function of one, or addresses"


class Broken(Exception):
    """A rule of lifetimes that is broken: what was seen, and at which node."""

    def __init__(self, rule: str, what: str, path: Optional[str] = None) -> None:
        super().__init__(rule, what)
        self.rule, self.what, self.path = rule, what, path


class NotTried(Exception):
    """Why a rule can't be tried."""


class Inapplicable(NotTried):
    """Why a rule says nothing of an export."""


class Export:
    """Structures of ours, each None where there is none; or of somebody else, at addresses."""

    def __init__(self, made: List[Any], capsules: Tuple[Any, ...] = (), is_ours: bool = True) -> None:
        by_form = {each.form: each for each in made}
        self.schema, self.array, self.stream = map(by_form.get, (ArrowSchema, ArrowArray, ArrowArrayStream))
        self.capsules, self.is_ours = capsules, is_ours

    def owned(self) -> List[Any]:
        """In the order in which they are released."""
        return [each for each in (self.array, self.schema, self.stream) if each is not None]

    def move(self) -> None:
        """To another place, with nothing left at the old one."""
        self.old = self.owned()
        places = [moved(each, spoils=True) for each in self.old]
        self.__init__(places, self.capsules)  # type: ignore

    def release(self) -> None:
        for each in self.owned():
            if not release(each):
                raise Broken("ReleaseMark", each.form.__name__)


def name_of(capsule: Any) -> str:
    get = ctypes.PYFUNCTYPE(ctypes.c_char_p, ctypes.py_object)(("PyCapsule_GetName", ctypes.pythonapi))
    return (get(capsule) or b"").decode(errors="replace")


def place_of(capsule: Any, name: str) -> Any:
    """The structure in a capsule, where it is."""
    form = ctypes.PYFUNCTYPE(ctypes.c_void_p, ctypes.py_object, ctypes.c_char_p)
    return room_at(FORMS[name], form(("PyCapsule_GetPointer", ctypes.pythonapi))(capsule, name.encode()))


def opened(given: Any, method: str) -> Any:
    """The structures in what a method gave, which must be capsules, of the right number and names."""
    names = METHODS[method]
    capsules = given if isinstance(given, tuple) else (given,)
    if len(capsules) != len(names) or isinstance(given, tuple) != (len(names) > 1):
        what = f"a tuple of {len(given)}" if isinstance(given, tuple) else "one object"
        raise Broken("CapsuleCount", f"{method} gives {what} in place of {('one capsule', 'a tuple of 2')[len(names) - 1]}")
    for capsule, name in zip(capsules, names):
        if type(capsule).__name__ != "PyCapsule":
            raise Broken("CapsuleType", f"{method} gives {shown(type(capsule).__name__)} in place of {name}")
        if name_of(capsule) != name:
            raise Broken("CapsuleName", f"{method} gives the capsule '{shown(name_of(capsule))}' in place of {name}")
    return [place_of(capsule, name) for capsule, name in zip(capsules, names)], capsules


class Source:
    """A producer by its words: LIBRARY.so:FUNCTION, LIBRARY.so:stream:FUNCTION or MODULE:OBJECT; or an object itself."""

    def __init__(self, words: str, is_stream: bool = False, thing: Any = None) -> None:
        self.words, self.is_stream, self.thing, self.is_given = words, is_stream, thing, thing is not None
        self.module, _, self.name = words.rpartition(":")
        if self.module.endswith(":stream"):
            self.module, self.is_stream = self.module[:-7], True
        self.is_library = not self.is_given and bool(LIBRARY.search(self.module))

    def load(self) -> None:
        """Opens the library or imports the module."""
        if self.is_library:
            self.thing = getattr(ctypes.CDLL(os.path.abspath(self.module)), self.name)
        elif not self.is_given:
            sys.path.insert(0, os.getcwd())
            self.thing = getattr(importlib.import_module(self.module), self.name)

    def find(self) -> Tuple[Any, str]:
        """What is exported, and by which method; no method for addresses."""
        thing = self.thing
        for _ in range(3):
            method = next((each for each in METHODS if hasattr(thing, each)), "")
            if method and not isinstance(thing, type):
                return thing, method
            places = thing if isinstance(thing, (tuple, list)) else [thing]
            if len(places) in (1, 2) and all(isinstance(each, int) and each for each in places):
                return places, ""
            if not callable(thing):
                break
            thing = thing()
        raise Unusable(f"{self.words} is none of these: {WANTED}")

    def make(self) -> Export:
        """An export; what is given by its address stays its owner's."""
        if self.is_library:
            made = [room(form) for form in ((ArrowArrayStream,) if self.is_stream else (ArrowSchema, ArrowArray))]
            self.thing(*map(ctypes.byref, made))
            return Export(made)
        thing, method = self.find()
        if not method:
            forms = (ArrowSchema, ArrowArray) if len(thing) == 2 else (ArrowArrayStream,)
            return Export([room_at(*each) for each in zip(forms, thing)], is_ours=False)
        places, capsules = opened(getattr(thing, method)(), method)
        return Export([moved(each) for each in places], capsules)

    def left(self) -> Any:
        """Structures that are left in their capsules, with these."""
        thing, method = self.find()
        return opened(getattr(thing, method)(), method)
