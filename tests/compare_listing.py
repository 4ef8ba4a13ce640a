"""Compares the listing program with the reference on seeded images, whole and damaged. Not part of the gate.

    python3 tests/compare_listing.py [COUNT [SEED]]

Build the program first: (cd crates/listing && rt run </dev/null >/dev/null).
"""

import collections
import pathlib
import random
import subprocess
import sys

from reference import (
    BLOCK,
    ENTRIES_AT,
    ENTRY_SIZE,
    OFFSETS,
    SIX,
    TODAY,
    listing,
    make_image,
    make_pointers,
    make_table,
    number,
    pointer,
)

PROGRAM = pathlib.Path(__file__).parent.parent / "crates" / "listing" / "out" / "listing"
LENGTHS = [65536] * 6 + [0xB000, 0xC000, 0x9000, 0x8000]
FLAGS = [0] * 12 + [1, 2, 3, 4, 8, 0xFFFFFFFC, 0xFFFFFFFF]


# ---- whole images


def some_name(rng):
    kind = rng.randrange(4)
    if kind == 0:
        return bytes(rng.randrange(1, 256) for _ in range(rng.randrange(1, 16)))
    if kind == 1:
        return rng.choice(SIX)[: rng.randrange(1, 6)] + rng.choice([b"", b"X", b"0", b"1", b"_"])
    if kind == 2:
        return bytes(rng.choice(b"\x01\x1f\x20\x21\x22\x7d\x7e\x7f\x80\xff") for _ in range(rng.randrange(1, 16)))
    return b"P%d" % rng.randrange(1, 100)


def some_names(rng, count):
    names = set()
    while len(names) < count:
        new = some_name(rng)
        if new not in SIX:
            names.add(new)
    return rng.sample(sorted(names), count)


def some_rows(rng, length):
    """Entries of a table that stands, and the addresses of the pointer blocks."""
    free = [at for at in range(0x1000, length, 0x1000) if at not in (0x4000, 0x5000)]
    rng.shuffle(free)
    factory, cpb0, cpb1 = free[:3]
    rows = [
        (b"BOOT_INFO", 0, 0x1000, 1),
        (b"FACTORY_IMAGE", factory, 0x1000, 1),
        (b"SPT0", 0x4000, 0x1000, 1),
        (b"SPT1", 0x5000, 0x1000, 1),
        (b"CPB0", cpb0, 0x1000, 1),
        (b"CPB1", cpb1, 0x1000, 1),
    ]
    count = rng.randrange(len(free) - 2) if rng.random() < 0.5 else len(free) - 3
    taken = {row[1] for row in rows} | set(free[3 : 3 + count])
    for text, at in zip(some_names(rng, count), free[3 : 3 + count]):
        size = 0x1000
        while at + size < length and at + size not in taken and rng.random() < 0.4:
            taken.add(at + size)
            size += 0x1000
        rows.append((text, at, size, rng.choice(FLAGS)))
    if rng.random() < 0.5:
        rng.shuffle(rows)
    return rows, (cpb0, cpb1)


def some_value(rng, starts):
    """What a place may hold: erased, a start, part written, half cleared, zero, a neighbour, anything."""
    at = rng.choice(starts)
    k = rng.randrange(1, 8)
    ones = 0xFFFFFFFFFFFFFFFF
    kind = rng.randrange(10)
    if kind < 4:
        return at
    return [
        ones,
        (ones << (8 * k) & ones) | (at & ((1 << (8 * k)) - 1)),
        at >> (8 * k) << (8 * k),
        0,
        rng.choice([at + 1, at ^ 0x1000, at ^ (1 << rng.randrange(64)), ones - 1, ones >> 1]),
        rng.randrange(1 << 64),
    ][kind - 4]


def slot_starts(rows):
    return [row[1] for row in rows if row[0] not in SIX] or [0x4000]


def some_shape(rng):
    """An offset and a count: today's, the last that fits, few places, or any."""
    at = rng.choice(OFFSETS)
    room = (BLOCK - at) // 8
    return rng.choice([TODAY, TODAY, (at, room), (at, rng.randrange(1, min(room, 4) + 1)), (at, rng.randrange(1, room + 1))])


def some_places(rng, rows, total):
    starts = slot_starts(rows) if rng.random() < 0.8 else [row[1] for row in rows]
    count = min(total, rng.choice([0, 1, 2, 5, 20, 100, total]))
    lowest = rng.randrange(total - count + 1)
    held = {k: some_value(rng, starts) for k in range(lowest, lowest + count)}
    for k in (0, total - 1):
        if rng.random() < 0.3:
            held[k] = some_value(rng, starts)
    return held


def some_pointers(rng, rows, shape):
    """A pointer block of this shape; the bytes that belong to no place may hold a slot's start."""
    other = rng.choice([None, b"\x5a", b"\0"])
    block = bytearray(make_pointers(some_places(rng, rows, shape[1]), shape, other))
    for at in (shape[0] - 8, shape[0] + 8 * shape[1]):
        if 0x18 <= at <= BLOCK - 8 and rng.random() < 0.3:
            block[at : at + 8] = pointer(rng.choice(slot_starts(rows)))
    return block


class Flash:
    """The parts of an image, each of which may be damaged."""

    def __init__(self, rng):
        self.rng = rng
        self.length = rng.choice(LENGTHS)
        self.rows, self.pointers_at = some_rows(rng, self.length)
        self.tables = [bytearray(make_table(self.rows)) for _ in range(2)]
        self.shape = some_shape(rng)
        pointers = some_pointers(rng, self.rows, self.shape)
        self.blocks = [bytearray(pointers), bytearray(pointers)]
        if rng.random() < 0.3:
            self.blocks[1] = some_pointers(rng, self.rows, rng.choice([self.shape, some_shape(rng)]))
        if rng.random() < 0.2:
            rows = [(some_name(rng) if name not in SIX else name, *rest) for name, *rest in self.rows]
            self.tables[1] = bytearray(make_table(rows))
        for table in self.tables:
            for at in list(range(12, 32)) + list(range(ENTRIES_AT + ENTRY_SIZE * len(self.rows), BLOCK)):
                if rng.random() < 0.05:
                    table[at] = rng.randrange(256)
        for block in self.blocks:
            for at in list(range(0x0C, 0x10)) + list(range(0x18, 0x20)):
                block[at] = rng.choice([0, 0, rng.randrange(256)])

    def image(self):
        return make_image(self.length, tuple(self.tables), tuple(self.blocks), pointers_at=self.pointers_at)

    def copies(self, pair):
        """One copy of a pair, the other, or both."""
        return self.rng.choice([pair[:1], pair[1:], pair, pair])

    def entry_at(self):
        return ENTRIES_AT + ENTRY_SIZE * self.rng.randrange(len(self.rows))


def put(block, at, size, value):
    block[at : at + size] = (value % (1 << (8 * size))).to_bytes(size, "little")


# ---- damage: each changes one thing that is judged


def header_field(f):
    at = f.rng.choice([0, 4])
    bit = 1 << f.rng.randrange(32)
    for table in f.copies(f.tables):
        put(table, at, 4, number(table[at : at + 4]) ^ bit)


def entry_count(f):
    value = f.rng.choice([0, 1, 5, 6, len(f.rows) - 1, len(f.rows) + 1, 126, 127, 128, 129, 255, 256 + len(f.rows), 0xFFFFFFFF])
    for table in f.copies(f.tables):
        put(table, 8, 4, value)


def name_bytes(f):
    at = f.entry_at()
    kind = f.rng.randrange(6)
    other = f.entry_at()
    value = bytes(f.rng.randrange(1, 256) for _ in range(16))
    where = f.rng.randrange(16)
    for table in f.copies(f.tables):
        if kind == 0:
            table[at] = 0
        elif kind == 1:
            table[at : at + 16] = value
        elif kind == 2:
            table[at : at + 16] = table[other : other + 16]
        elif kind == 3:
            table[at : at + 16] = f.rng.choice(SIX).ljust(16, b"\0")
        elif kind == 4:
            table[at + where] = value[where]
        else:
            end = bytes(table[at : at + 16]).find(b"\0")
            table[at + end + 1 : at + 16] = value[end + 1 :]


def start_field(f):
    at = f.entry_at() + 16
    value = f.rng.choice([
        1, 0xFFF, 0x1000, f.length, f.length - 0x1000, 0x4000, 0xFFFFFFFFFFFFF000, 1 << 32, 1 << 63,
        0x10000000000004000, f.rng.randrange(0, f.length, 0x1000),
    ])
    change = f.rng.choice([None, None, 1, 0x800, 0x1000, -0x1000, 1 << 12, 1 << 32, 1 << 63])
    for table in f.copies(f.tables):
        put(table, at, 8, value if change is None else number(table[at : at + 8]) + change)


def length_field(f):
    at = f.entry_at() + 24
    value = f.rng.choice([0, 1, 0xFFF, 0x1001, 0x1000, 0x2000, 0x800, f.length, 0xFFFFF000, 0x80000000, f.rng.randrange(0, f.length, 0x1000)])
    for table in f.copies(f.tables):
        put(table, at, 4, value)


def wrapped_range(f):
    at = f.entry_at() + 16
    blocks = f.rng.randrange(1, 5)
    for table in f.copies(f.tables):
        put(table, at, 8, (1 << 64) - 0x1000 * blocks)
        put(table, at + 8, 4, 0x1000 * (blocks + f.rng.randrange(3)))


def flags_field(f):
    at = f.entry_at() + 28
    for table in f.copies(f.tables):
        put(table, at, 4, f.rng.choice(FLAGS))


def pointer_field(f):
    at = f.rng.choice([0x00, 0x04, 0x08, 0x10, 0x14])
    bit = 1 << f.rng.randrange(32)
    change = f.rng.choice([1, -1, 0])
    for block in f.copies(f.blocks):
        value = number(block[at : at + 4])
        put(block, at, 4, value + change if change else value ^ bit)


def place(f):
    at = f.shape[0] + 8 * f.rng.randrange(f.shape[1])
    for block in f.copies(f.blocks):
        block[at : at + 8] = pointer(some_value(f.rng, slot_starts(f.rows)))


def wiped(f):
    """A copy whose erase was cut."""
    block = f.rng.choice(f.tables + f.blocks)
    k = f.rng.choice([1, 2, 3, 4, 32, 2048, 4095, 4096])
    block[:k] = b"\xff" * k


def torn(f):
    """A copy that was being programmed after an erase."""
    block = f.rng.choice(f.tables + f.blocks)
    k = f.rng.choice([4, 5, 32, 2048, 4095])
    block[k:] = b"\xff" * (BLOCK - k)
    block[:4] = b"\xff" * 4


def any_byte(f):
    block = f.rng.choice(f.tables + f.blocks)
    block[f.rng.randrange(BLOCK)] = f.rng.randrange(256)


DAMAGE = [header_field, entry_count, name_bytes, name_bytes, start_field, length_field, wrapped_range, flags_field]
DAMAGE += [pointer_field, place, wiped, torn, any_byte]


def other_length(rng, image):
    kind = rng.randrange(6)
    if kind == 0:
        return image[: rng.randrange(len(image))]
    if kind == 1:
        return image[: 0x1000 * rng.randrange(len(image) // 0x1000)]
    if kind == 2:
        return b""
    if kind == 3:
        return image.ljust(65536, b"\xff") + b"\xff" * rng.choice([1, 4095, 4096])
    if kind == 4:
        return image[: len(image) - 1]
    return bytes(rng.randrange(256) for _ in range(rng.choice([1, 100, 4096])))


def some_image(rng):
    f = Flash(rng)
    for _ in range(rng.choice([0, 1, 1, 1, 2, 3])):
        rng.choice(DAMAGE)(f)
    image = f.image()
    return other_length(rng, image) if rng.random() < 0.08 else image


def main(words):
    count = int(words[0]) if words else 4000
    seed = int(words[1]) if len(words) > 1 else 1
    if not PROGRAM.exists():
        sys.exit(f"{PROGRAM} is missing: run rt run in crates/listing")
    tally = collections.Counter()
    differing = 0
    for k in range(seed, seed + count):
        image = some_image(random.Random(k))
        expected = listing(image)
        printed = subprocess.run([PROGRAM], input=image, stdout=subprocess.PIPE, check=True).stdout.decode()
        lines = expected.count("\n") - 1
        tally[expected.strip() if expected.startswith("refused") else "listed %3d" % lines] += 1
        if printed != expected:
            differing += 1
            print(f"seed {k}: expected\n{expected}printed\n{printed}")
    for what, times in sorted(tally.items()):
        print(f"{times:6} {what}")
    print(f"{count} images, {differing} differ")
    sys.exit(1 if differing else 0)


if __name__ == "__main__":
    main(sys.argv[1:])
