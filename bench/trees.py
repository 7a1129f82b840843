"""Trees as texts, of which the benches are made. A node is the lines of its schema and those of its array, with all that is below it."""


def number(value, width=4):
    """The bytes of a number, the least first."""
    return value.to_bytes(width, "little", signed=value < 0)


def numbers(values, width=4):
    return b"".join(number(it, width) for it in values)


def node(format, count, *buffers, below=(), entries=None, nulls=0, offset=0, name=None):
    """A node of this format and these buffers, of which None is absent, over these children, and with this dictionary."""
    parts = [*below, *([] if entries is None else [entries])]
    token, flags = ("~", 0) if name is None else (f"={name}", 2)
    schema = [f"S ={format} {token} {flags} {len(below)} {len(parts) - len(below)} ~"]
    array = [f"A {count} {nulls} {offset} {len(buffers)} {len(below)} {len(parts) - len(below)}"]
    array += ["B ~" if it is None else f"B ={it.hex()}" for it in buffers]
    for it in parts:
        schema += it[0]
        array += it[1]
    return schema, array


def tree(root):
    """The text of a tree."""
    return "".join(f"{it}\n" for it in ("tree 1", *root[0], *root[1]))


def count_of(below):
    """How many items a node has."""
    return int(below[1][0].split()[1])


def nulls(count):
    return node("n", count)


def whole(values, width=4):
    """Whole numbers of this many bytes."""
    return node({1: "c", 2: "s", 4: "i", 8: "l"}[width], len(values), None, numbers(values, width))


def sized(size, count):
    """This many items of this many letters each."""
    return node(f"w:{size}", count, None, b"a" * size * count)


def texts(sizes, wide=False):
    """Texts of these many letters."""
    ends = [0]
    for it in sizes:
        ends.append(ends[-1] + it)
    return node("U" if wide else "u", len(sizes), None, numbers(ends, 8 if wide else 4), b"a" * ends[-1])


def text(letters, wide=False):
    return texts([letters], wide)


def views(count, size, byte=b"a", buffers=1):
    """This many views, of all bytes of one of these data buffers."""
    view = [number(size) + byte * 4 + numbers((it, 0)) for it in range(buffers)]
    made = b"".join(view[it % buffers] for it in range(count)) if buffers > 1 else view[0] * count
    return node("vz", count, None, made, *[byte * size] * buffers, number(size, 8) * buffers)


def indices(count, entries):
    """This many indices, all of the first entry."""
    return node("c", count, None, bytes(count), entries=entries)


def fixed(size, count, below):
    """This many lists of this many items."""
    return node(f"+w:{size}", count, None, below=[below])


def listed(sizes, below):
    """Lists of these many items."""
    ends = [0]
    for it in sizes:
        ends.append(ends[-1] + it)
    return node("+l", len(sizes), None, numbers(ends), below=[below])


def table(rows, *columns):
    """A struct of columns."""
    return node("+s", rows, None, below=columns)


def sparse(below, *more):
    """A sparse union whose items are of the first child."""
    return node("+us:" + ",".join(str(it) for it in range(5, 6 + len(more))), count_of(below), b"\5" * count_of(below), below=[below, *more])


def dense(count, below):
    """A dense union whose items are all the first of its one child."""
    return node("+ud:5", count, b"\5" * count, bytes(4 * count), below=[below])


def runs(ends, values):
    """The runs that end there, of these values."""
    return node("+r", ends[-1], below=[node("l", len(ends), None, numbers(ends, 8), name="run_ends"), values])


def dictionaries(levels, size, null=False, at_the_end="n"):
    """Dictionaries of lists of this many indices, each into the next dictionary, which ask for this size to the power of the levels.
    The root has one index. Where null is set, a list and an index that is null are before each, and one before the root's."""
    count = 2 if null else 1
    below = node(at_the_end, count * size, *([] if at_the_end == "n" else [None, b""]))
    for it in reversed(range(levels)):
        lists = node(f"+w:{size}", count, b"\2" if null else None, below=[below], nulls=count - 1)
        if it == 0 and null:
            below = node("c", 2, b"\1", b"\1\0", entries=lists, nulls=1)
        else:
            items = 1 if it == 0 else count * size
            below = node("c", items, None, bytes([0 if it == 0 else count - 1]) * items, entries=lists)
    return below
