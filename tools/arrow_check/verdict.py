"""The rules by name, each as a sentence, what a broken one says to a person, and the statuses."""
import re
from typing import Any, Dict, List, NamedTuple, Optional

from .layout import Kind, NO_KIND, shown

# Of several results the greatest status counts.
STATUS = {"lawful": 0, "written": 0, "not tried": 0, "refused": 0, "raised": 1, "unusable": 2, "not written": 3, "failed": 3,
          "left out": 4, "folder changed": 6, "hung": 7, "unlawful": 8, "crashed": 9, "exited": 10}
FAULT = re.compile(r"tree (?P<path>/\S*): (schema: )?(?P<rule>\w+)( at (?P<place>\d+): (?P<left>.*), (?P<right>.*))?")


class Rule(NamedTuple):
    sentence: str  # the rule
    section: str  # of the public standard: "The Arrow C data interface" and "The Arrow C stream interface"


LIFETIMES = {
    "ReleaseMark": Rule("A release marks its structure released", "Release callback semantics"),
    "Moved": Rule("An export works after it is moved to another place in memory", "Moving an array"),
    "SchemaFirst": Rule("An array doesn't change where its schema is released first", "Member allocation"),
    "ArrayFirst": Rule("A schema doesn't change where its array is released first", "Member allocation"),
    "TwoExports": Rule("An export doesn't change where another one is made, read or released", "Member allocation"),
    "ChildMoved": Rule("A child that is moved out outlives its parent's release, and is released by itself",
                       "Moving child arrays"),
    "OtherThread": Rule("An export may be released on another thread", "Release callback semantics"),
    "Leak": Rule("Releasing an export frees all that it took", "Release callback semantics"),
    "ChunkChanged": Rule("A chunk doesn't change where a later one is asked for", "Result lifetimes"),
    "ChunkOrder": Rule("Chunks may be released in any order", "Result lifetimes"),
    "StreamFirst": Rule("Chunks and schema outlive their stream", "Result lifetimes"),
    "EndMark": Rule("The end of a stream is a structure marked released, whatever was in it", "ArrowArrayStream.get_next"),
    "EndAgain": Rule("After its end a stream gives the end again", "ArrowArrayStream.get_next"),
    "LastError": Rule("The last error is a text of UTF-8, or null, and stays until the next call",
                      "ArrowArrayStream.get_last_error"),
    "CapsuleTaken": Rule("What is moved out of a capsule outlives the capsule", "Lifetime Semantics"),
    "CapsuleLeft": Rule("The destructor of a capsule releases what is left in it, once", "Lifetime Semantics"),
}
CAPSULES = {
    "CapsuleCount": Rule("__arrow_c_array__ gives two capsules, the other methods one", "Export Protocol"),
    "CapsuleType": Rule("What is given is a PyCapsule", "Export Protocol"),
    "CapsuleName": Rule("A capsule has the name of what is in it", "PyCapsule Standard"),
}
OF_SCHEMA = {
    "Deep": "{column} is on a level below 64. Do its pointers lead in a circle?",
    "Released": "The schema of {column} is released: its release callback is null.",
    "Format": "The format of {column}, '{format}', is none of Arrow's.",
    "Meta": "The metadata of {column} aren't counted keys and values: they begin with {bytes}.",
    "ChildCount": "{column} has {children} in its schema, which its type, {format}, can't have.",
    "DictIndexType": "{column} has a dictionary. So its format is that of the indices, a whole number, and not {format}.",
    "MapShape": "The child of {column}, a map, must be a struct of a key and a value.",
}
OF_ARRAY = {
    "Released": "The array of {column} is released: its release callback is null.",
    "NegativeLength": "The length of {column} is {left}.",
    "NegativeOffset": "The offset of {column} is {left}.",
    "BufferCount": "{column} has {left} buffers; its type, {format}, asks for {right}.",
    "ChildCount": "{column} has {left} children in its array and {right} in its schema.",
    "Dictionary": "{column} has {a_dictionary} in its array and {no_dictionary} in its schema.",
    "BufferAbsent": "Buffer {place} of {column} ({role}) is null; {right} bytes of it are needed.",
    "BufferShort": "Buffer {place} of {column} ({role}) ends with mapped memory after {left} bytes; {right} are needed.",
    "OffsetsFall": "The offsets of {column} fall behind item {place}: from {left} to {right}.",
    "ChildShort": "The child {child} of {column} has {left} items; {column} needs {right}.",
    "NullCount": "The null count of {column} is {left}; by its validity bitmap it is {right}.",
    "ViewPlace": "View {place} of {column} leads out of its data: it says {left}, where {right} is the bound.",
    "ViewPrefix": "View {place} of {column} has the prefix '{left_text}', where its text begins with '{right_text}'.",
    "NotText": "Item {place} of {column} has {right} bytes, which are UTF-8 up to byte {left} alone.",
    "IndexRange": "Item {place} of {column} is the index {left} into a dictionary of {right} entries.",
    "WindowTooLong": "The window of {column} ends at {left}, above 2^40.",
    "TopNulls": "{left} rows of the table are null by the root's own validity bitmap; a table's rows aren't null.",
    "NullPointer": "{column} has a null pointer in place of its {member}.",
    "Union": "{column} is no lawful union: arrowtree refuses its type ids, offsets, buffers or children.",
    "RunEnds": "{column} is no lawful run-end encoded array: arrowtree refuses its ends, values or children.",
}
ROLES = {"[uzUZ]": ["validity", "offsets", "data"], r"\+[lLm]": ["validity", "offsets"], "v[uz]": ["validity", "views"]}


class Tree:
    """The schema of a text, by paths."""

    def __init__(self, lines: List[str]) -> None:
        self.lines, self.nodes, self.data = iter(lines), {}, {}  # type: ignore
        self.node("")

    def node(self, path: str) -> None:
        words = next(self.lines, "S !").split()
        if len(words) < 7:
            self.nodes[path] = NO_KIND
            return
        format, name, data = (None if it == "~" else bytes(re.sub(
            rb"%(..)", lambda found: bytes([int(found[1], 16)]), it[1:].encode())) for it in (words[1], words[2], words[6]))
        self.nodes[path] = Kind((format or b"").decode("latin-1"), name, int(words[4]), words[5] == "1")
        self.data[path] = data
        for step in [*range(int(words[4])), *["d"][:int(words[5])]]:
            self.node(f"{path}/{step}")


def column_of(nodes: Dict[str, Kind], path: str) -> str:
    """The names on the way to a node."""
    steps = path.rstrip("/").split("/")
    names = []
    for i, step in enumerate(steps[1:]):
        name = nodes.get("/".join(steps[:i + 2]), NO_KIND).name
        names.append("<dictionary>" if step == "d" else shown(name) if name else f"child {step}")
    return ".".join(names) or "the root"


def role(format: str, place: int) -> str:
    names = next((names for each, names in ROLES.items() if re.fullmatch(each, format)), ["validity", "data"])
    return names[place] if place < len(names) else "data"


def sentence(nodes: Dict[str, Kind], data: Dict[str, Optional[bytes]], of_schema: bool, found: Dict[str, Any]) -> str:
    """What a fault of a layout means."""
    path = found["path"].rstrip("/")
    kind, rule, place = nodes.get(path, NO_KIND), found["rule"], int(found.get("place") or 0)
    left, right = found.get("left"), found.get("right")
    begins = (data.get(path) or b"")[:24]
    name, child = column_of(nodes, path), column_of(nodes, f"{path}/{place}").split(".")[-1]
    words = {
        "column": name if name == "the root" or name.startswith("child ") else f"column {name}", "child": child,
        "format": shown(kind.format), "left": left, "right": right, "place": place, "role": role(kind.format, place),
        "bytes": f"the text '{shown(begins)}'" if begins[:4].isalnum() or begins[:1] in b"{[<\"" else begins.hex(" "),
        "children": f"{kind.n_children} child{'ren' * (kind.n_children != 1)}", "member": found.get("member"),
        "a_dictionary": "a dictionary" if left == "1" else "none",
        "no_dictionary": "a dictionary" if right == "1" else "none"}
    if rule == "ViewPrefix":
        words.update({f"{side}_text": shown((int(number) % 2**32).to_bytes(4, "little")) for side, number in
                      (("left", left), ("right", right))})
    said = (OF_SCHEMA if of_schema else OF_ARRAY).get(rule, "").format_map(words)
    return said[:1].upper() + said[1:]
