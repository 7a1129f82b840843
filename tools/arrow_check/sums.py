"""Sums of what structures hold, by which a change is seen."""
from typing import Any, Dict, Optional
from zlib import crc32

from .layout import PAGE, Refused, Writer


class Sums(Writer):
    """Reads structures as a Writer does, and keeps in place of each node's text a sum, by which a change is seen."""

    def taken(self, read: Any, address: int, path: str) -> Dict[str, int]:
        self.begin(None, True)
        self.left, self.room = self.most, 2 * self.most + PAGE
        self.sums: Dict[str, int] = {}
        self.path = path
        try:
            read(address, path)
        except Refused as why:
            self.sums[self.path] = crc32(str(why).encode())
        self.lines = []
        return self.sums

    def of_schema(self, address: int) -> Dict[str, int]:
        self.kinds.clear()
        return self.taken(self.schema, address, "")

    def of_array(self, address: int, path: str = "") -> Dict[str, int]:
        return self.taken(self.array, address, path)

    def node(self, form: Any, address: int, path: str) -> Any:
        self.path = path
        self.sums[path] = 0
        return super().node(form, address, path)

    def line(self, text: str, times: int = 1) -> None:
        self.spend((len(text) + 1) * times)
        self.sums[self.path] = crc32(text.encode() * times, self.sums.get(self.path, 0))

    def flush(self) -> None:
        pass

    def content(self, place: int, size: int, what: str) -> None:
        self.line("B" if place else "~")
        for piece in self.pieces(place, size, what):
            self.sums[self.path] = crc32(piece, self.sums[self.path])


def changed(before: Dict[str, int], after: Dict[str, int]) -> Optional[str]:
    """The first node that isn't as it was; a node that is gone is one of its parent's."""
    return next((path for path in before if before[path] != after.get(path)), None)
