#!/usr/bin/env python3
"""crafted.py COUNT crafted|ordinary: a table of one column, name, of COUNT texts, all different, that have one and the same slots in item_keys.

The kit's FoldHasher has a fixed seed, and it multiplies. Of 32 bytes the last eight are taken for a factor, and are chosen here so
that it is 2^63 + 2^39: then the bits that name the slot, 32 to 53 of the hash, come from some bits of the word before it alone, and
two bytes of that word are free. The first 16 bytes are tried until the others are letters. `ordinary` makes as many texts of the
same length that aren't chosen. It ends with status 1 where a text's hash isn't as wanted.
"""
import itertools
import random
import sys

ALL, FACTOR, SEED = 2**64 - 1, 0x9E3779B97F4A7C15, 0x243F6A8885A308D3
LETTERS = bytes(it for it in range(0x21, 0x7F) if it not in b'",')
# These eight bytes make the factor, and are UTF-8.
LAST = (FACTOR ^ (2**63 + 2**39)).to_bytes(8, "little")


def multiplied(a, b):
    product = a * b
    return (product & ALL) ^ (product >> 64)


def after_first(first):
    a, b = (int.from_bytes(first[at : at + 8], "little") for at in (0, 8))
    return multiplied(a ^ ((SEED + 32) & ALL), b ^ FACTOR)


def slot_of(text):
    a, b = (int.from_bytes(text[at : at + 8], "little") for at in (16, 24))
    return (multiplied(a ^ after_first(text[:16]), b ^ FACTOR) >> 32) & (2**22 - 1)


def crafted(count):
    made = 0
    draw = random.Random(1)
    while made < count:
        first = bytes(draw.choices(LETTERS, k=16))
        # With this word the other factor is 0, but for the two free bytes; so no carry comes into bit 32.
        word = bytearray(after_first(first).to_bytes(8, "little"))
        if any(word[at] not in LETTERS for at in (0, 1, 4, 5, 6, 7)):
            continue
        for word[2], word[3] in itertools.product(LETTERS, LETTERS):
            if made < count:
                made += 1
                yield first + bytes(word) + LAST


def ordinary(count):
    draw = random.Random(1)
    for number in range(count):
        yield b"%06d" % number + bytes(draw.choices(LETTERS, k=18)) + LAST


def main():
    count, kind = int(sys.argv[1]), sys.argv[2]
    out = sys.stdout.buffer
    out.write(b"name\n")
    slots = set()
    for text in {"crafted": crafted, "ordinary": ordinary}[kind](count):
        slots.add(slot_of(text))
        out.write(text + b"\n")
    if (kind == "crafted") != (len(slots) == 1):
        sys.exit(f"crafted.py: the texts have {len(slots)} slots")


main()
