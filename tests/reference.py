"""Documents 01 and 02 in plain Python: an independent reference that makes test data and that programs are compared with.

Written from the documents alone. The gate never runs it.

    python3 tests/reference.py list < IMAGE       what the listing program must print
    python3 tests/reference.py quarry > IMAGE     the quarry image
"""

import sys
from collections import namedtuple

BLOCK = 4096
TABLE_MAGIC = 0x57713427
POINTERS_MAGIC = 0x57789609
LENGTH_LIMIT = 268_435_456
GRANULES = (4096, 32768, 65536)
ENTRIES_AT = 0x20
ENTRY_SIZE = 32
ENTRY_LIMIT = 127
OFFSETS = range(0x20, 4088 + 1, 8)
TODAY = (0x20, 508)
ERASED = b"\xff" * 8
SIX = (b"BOOT_INFO", b"FACTORY_IMAGE", b"SPT0", b"SPT1", b"CPB0", b"CPB1")
FOUR_BLOCKS = SIX[2:]
LISTING_LIMIT = 65536

Setting = namedtuple("Setting", "granule spt0 spt1")
Entry = namedtuple("Entry", "field start length flags")
View = namedtuple("View", "table cpb0 cpb1 table_at pointers pointers_at")
Reading = namedtuple("Reading", "table order")

LISTING = Setting(4096, 0x4000, 0x5000)


class Refused(Exception):
    """A refusal, with its number."""

    def __init__(self, number):
        super().__init__(number)
        self.number = number


def number(data):
    return int.from_bytes(data, "little")


def block(image, at):
    return image[at : at + BLOCK]


# ---- the sub-partition table


def name(entry):
    """The name up to its zero; all 16 bytes where there is none."""
    return entry.field.split(b"\0")[0]


def entries(table):
    """The counted entries."""
    found = []
    for i in range(number(table[8:12])):
        row = table[ENTRIES_AT + ENTRY_SIZE * i : ENTRIES_AT + ENTRY_SIZE * (i + 1)]
        found.append(Entry(row[:16], number(row[16:24]), number(row[24:28]), number(row[28:32])))
    return found


def named(found, wanted):
    return next(e for e in found if name(e) == wanted)


def overlap(a, b):
    return a.start < b.start + b.length and b.start < a.start + a.length


NO_ENTRY = 127


def first_wrong(found, right):
    """The number of the first entry that does not pass, if there is one."""
    return next((i for i, e in enumerate(found) if not right(e)), None)


def first_clash(found, clash):
    """The number of the first entry that clashes with an earlier one, if there is one."""
    return next((i for i, e in enumerate(found) if any(clash(d, e) for d in found[:i])), None)


def table_fault(table, setting, image_length):
    """The first broken rule, 1 to 11, and the entry that breaks it; none if the copy stands."""
    if number(table[0:4]) != TABLE_MAGIC or number(table[4:8]) != 0:
        return 1, NO_ENTRY
    if not 1 <= number(table[8:12]) <= ENTRY_LIMIT:
        return 2, NO_ENTRY
    found = entries(table)
    told = {b"SPT0": setting.spt0, b"SPT1": setting.spt1}

    def on_granules(e):
        return e.start % setting.granule == 0 and e.length >= setting.granule

    for rule, entry in (
        (3, first_wrong(found, lambda e: e.field[0] != 0 and 0 in e.field)),
        (4, first_clash(found, lambda d, e: name(d) == name(e))),
        (5, first_wrong(found, lambda e: e.start % 4096 == 0 and e.length % 4096 == 0 and e.length != 0)),
        (6, first_wrong(found, lambda e: e.start + e.length <= image_length)),
        (7, first_clash(found, overlap)),
        (8, None if set(SIX) <= {name(e) for e in found} else NO_ENTRY),
        (9, first_wrong(found, lambda e: name(e) != b"BOOT_INFO" or e.start == 0)),
        (10, first_wrong(found, lambda e: told.get(name(e), e.start) == e.start)),
        (11, first_wrong(found, lambda e: name(e) not in FOUR_BLOCKS or on_granules(e))),
    ):
        if entry is not None:
            return rule, entry
    return None


def table_stands(table, setting, image_length):
    return table_fault(table, setting, image_length) is None


def slots(table):
    """The application slots, in table order."""
    return [e for e in entries(table) if e.flags & 3 == 0 and name(e) not in SIX]


# ---- the pointer block


def pointers_stand(pointers):
    return (
        number(pointers[0x00:0x04]) == POINTERS_MAGIC
        and number(pointers[0x04:0x08]) == 0x18
        and number(pointers[0x08:0x0C]) == BLOCK
        and offset(pointers) in OFFSETS
        and 1 <= count(pointers) <= (BLOCK - offset(pointers)) // 8
    )


def offset(pointers):
    """Where the places begin."""
    return number(pointers[0x10:0x14])


def count(pointers):
    """How many places there are."""
    return number(pointers[0x14:0x18])


def place_at(pointers, k):
    """Where a place of the block is."""
    return offset(pointers) + 8 * k


def places(pointers):
    return [pointers[place_at(pointers, k) : place_at(pointers, k + 1)] for k in range(count(pointers))]


def judgement(place, starts):
    """What a place holds, by the slots' starts."""
    if place == ERASED:
        return "erased"
    if number(place) == 0:
        return "spent"
    if number(place) in starts:
        return "live"
    if place[7] == 0xFF:
        return "part-written"
    return "stray"


def boot_order(table, pointers):
    starts = [e.start for e in slots(table)]
    order = []
    for place in reversed(places(pointers)):
        if judgement(place, starts) == "live":
            slot = starts.index(number(place))
            if slot not in order:
                order.append(slot)
    return order


# ---- which copy is read


def view(image, setting):
    """What is read of an image: refusals 1, 2, 3, 50, 51 and 5."""
    if len(image) % 4096 or not 4096 <= len(image) <= LENGTH_LIMIT:
        raise Refused(1)
    if setting.granule not in GRANULES:
        raise Refused(2)
    if setting.spt0 == setting.spt1:
        raise Refused(3)
    for at in (setting.spt0, setting.spt1):
        if at % setting.granule or at + setting.granule > len(image):
            raise Refused(3)
    for table_at in (setting.spt0, setting.spt1):
        table = block(image, table_at)
        if table_stands(table, setting, len(image)):
            break
    else:
        copies = [block(image, at) for at in (setting.spt0, setting.spt1)]
        magics = [number(copy[0:4]) == TABLE_MAGIC for copy in copies]
        raise Refused(51 if any(magics) else 50)
    cpb0 = named(entries(table), b"CPB0").start
    cpb1 = named(entries(table), b"CPB1").start
    for pointers_at in (cpb0, cpb1):
        if pointers_stand(block(image, pointers_at)):
            return View(table, cpb0, cpb1, table_at, block(image, pointers_at), pointers_at)
    raise Refused(5)


def reading(image, setting):
    v = view(image, setting)
    return Reading(v.table, boot_order(v.table, v.pointers))


def order_list(image, setting, room):
    order = reading(image, setting).order
    if len(order) > room:
        raise Refused(13)
    return order


def standing_dump(first, second):
    for dump in (first, second):
        if len(dump) == BLOCK and pointers_stand(dump):
            return dump
    return b""


# ---- the listing program


def shown(text):
    return "".join(chr(b) if 0x21 <= b <= 0x7E else "?" for b in text)


def dead_places(table, pointers):
    """The lines of the places that are spent, part-written or stray, lowest first."""
    starts = [e.start for e in slots(table)]
    lines = []
    for k, place in enumerate(places(pointers)):
        kind = judgement(place, starts)
        if kind in ("spent", "part-written", "stray"):
            lines.append(f"{k} {kind} {number(place)}\n")
    return lines


def listing_for(image, setting):
    """What is printed of an image with this setting."""
    try:
        v = view(image, setting)
    except Refused as refusal:
        return f"refused {refusal.number}\n"
    lines = ["order slot name start length\n"]
    found = slots(v.table)
    for rank, slot in enumerate(boot_order(v.table, v.pointers), 1):
        e = found[slot]
        lines.append(f"{rank} {slot} {shown(name(e))} {e.start} {e.length}\n")
    dead = dead_places(v.table, v.pointers)
    if dead:
        lines += ["\n", "place kind value\n"] + dead
    return "".join(lines)


def listing(image):
    """What the listing program prints."""
    return "refused 1\n" if len(image) > LISTING_LIMIT else listing_for(image, LISTING)


# ---- steps: ("program", address, byte) or ("erase", address)


def programs(at, data):
    return [("program", at + i, b) for i, b in enumerate(data)]


def rewrite(at, data):
    assert len(data) == BLOCK
    return programs(at, bytes(4)) + [("erase", at)] + programs(at + 4, data[4:]) + programs(at, data[:4])


def apply(image, steps, granule):
    """The image after these steps."""
    after = bytearray(image)
    for step in steps:
        if step[0] == "program":
            after[step[1]] &= step[2]
        else:
            after[step[1] : step[1] + granule] = b"\xff" * granule
    return bytes(after)


def cut(image, steps, granule, done, wiped=b""):
    """The image where a job is cut after some steps. If an erase comes next, `wiped` has 0xFF for each byte of the
    granule that it has wiped already, and 0 for each that is old."""
    after = apply(image, steps[:done], granule)
    if done < len(steps) and steps[done][0] == "erase":
        at = steps[done][1]
        old, new = (number(part) for part in (after[at : at + granule], wiped[:granule]))
        after = after[:at] + (old | new).to_bytes(granule, "little") + after[at + granule :]
    return after


# ---- commands: ("enable", slot), ("disable", slot), ("rename", slot, name), ("repair",)


def pointer(start):
    return start.to_bytes(8, "little")


def ordered(pointers, starts, order):
    """The pointer block with another order; the bytes before the places and behind the last as they were."""
    end = place_at(pointers, count(pointers))
    front = pointers[: offset(pointers)] + b"".join(pointer(starts[slot]) for slot in reversed(order))
    return front + b"\xff" * (end - len(front)) + pointers[end:]


def enable(v, starts, order, slot):
    if order[:1] == [slot]:
        return []
    if places(v.pointers)[-1] == ERASED:
        free = count(v.pointers) - 1
        while free > 0 and places(v.pointers)[free - 1] == ERASED:
            free -= 1
        at = place_at(v.pointers, free)
        data = pointer(starts[slot])
        return programs(v.cpb1 + at, data) + programs(v.cpb0 + at, data)
    after = [slot] + [s for s in order if s != slot]
    if len(after) > count(v.pointers):
        raise Refused(15)
    data = ordered(v.pointers, starts, after)
    return rewrite(v.cpb1, data) + rewrite(v.cpb0, data)


def disable(v, starts, order, slot):
    start = starts[slot]
    others = [s for k, s in enumerate(starts) if k != slot]
    if any(start >> bits << bits in others for bits in (8, 16, 24)):
        data = ordered(v.pointers, starts, [s for s in order if s != slot])
        return rewrite(v.cpb1, data) + rewrite(v.cpb0, data)
    steps = []
    for copy in (v.cpb1, v.cpb0):
        for k, place in enumerate(places(v.pointers)):
            if place == pointer(start):
                steps += programs(copy + place_at(v.pointers, k), bytes(8))
    return steps


def with_name(table, slot, new):
    row = entries(table).index(slots(table)[slot])
    at = ENTRIES_AT + ENTRY_SIZE * row
    return table[:at] + new.ljust(16, b"\0") + table[at + 16 :]


def lowest_start(table, pointers, image_length, length):
    """The lowest multiple of 4,096 at which a new slot may start, or none."""
    held = [number(place) for place in places(pointers)]
    for start in range(0, image_length - length + 1, BLOCK):
        new = Entry(b"", start, length, 0)
        if start not in held and not any(overlap(new, e) for e in entries(table)):
            return start
    return None


def with_count(table, count):
    return table[:8] + count.to_bytes(4, "little") + table[12:]


def with_slot(table, new, start, length):
    """The new entry comes last."""
    count = len(entries(table))
    at = ENTRIES_AT + ENTRY_SIZE * count
    table = table[:at] + make_entry(new, start, length, 0) + table[at + ENTRY_SIZE :]
    return with_count(table, count + 1)


def without_slot(table, slot):
    """The rows after it close up, and the uncounted ones are zero."""
    found = entries(table)
    row, end = found.index(slots(table)[slot]), ENTRIES_AT + ENTRY_SIZE * len(found)
    at = ENTRIES_AT + ENTRY_SIZE * row
    return with_count((table[:at] + table[at + ENTRY_SIZE : end]).ljust(BLOCK, b"\0"), len(found) - 1)


def pair_agrees(image, stands, at0, at1):
    return stands(block(image, at0)) and stands(block(image, at1)) and block(image, at0) == block(image, at1)


def start(image, setting, command):
    """The listed steps of a command, or its refusal."""
    v = view(image, setting)
    stands = lambda table: table_stands(table, setting, len(image))
    tables_agree = pair_agrees(image, stands, setting.spt0, setting.spt1)
    pointers_agree = pair_agrees(image, pointers_stand, v.cpb0, v.cpb1)
    if command[0] == "repair":
        steps = []
        if not tables_agree:
            steps += rewrite(setting.spt0 + setting.spt1 - v.table_at, v.table)
        if not pointers_agree:
            steps += rewrite(v.cpb0 + v.cpb1 - v.pointers_at, v.pointers)
        return steps
    if not tables_agree or not pointers_agree:
        raise Refused(6)
    if command[0] == "create":
        new, length = command[1:]
        if not 1 <= len(new) <= 15 or 0 in new or new in SIX:
            raise Refused(9)
        if any(name(e) == new for e in entries(v.table)):
            raise Refused(10)
        if length == 0 or length % BLOCK != 0:
            raise Refused(40)
        if len(entries(v.table)) == 127:
            raise Refused(41)
        at = lowest_start(v.table, v.pointers, len(image), length)
        if at is None:
            raise Refused(42)
        data = with_slot(v.table, new, at, length)
        return rewrite(setting.spt1, data) + rewrite(setting.spt0, data)
    slot = command[1]
    if slot >= len(slots(v.table)):
        raise Refused(7)
    starts = [e.start for e in slots(v.table)]
    order = boot_order(v.table, v.pointers)
    if command[0] == "enable":
        if block(image, starts[slot]) == b"\xff" * BLOCK:
            raise Refused(14)
        return enable(v, starts, order, slot)
    if command[0] == "disable":
        if slot not in order:
            raise Refused(8)
        return disable(v, starts, order, slot)
    if command[0] == "delete":
        if slot in order:
            raise Refused(43)
        data = without_slot(v.table, slot)
        return rewrite(setting.spt1, data) + rewrite(setting.spt0, data)
    new = command[2]
    if not 1 <= len(new) <= 15 or 0 in new or new in SIX:
        raise Refused(9)
    old = name(slots(v.table)[slot])
    if new != old and any(name(e) == new for e in entries(v.table)):
        raise Refused(10)
    if new == old:
        return []
    data = with_name(v.table, slot, new)
    return rewrite(setting.spt1, data) + rewrite(setting.spt0, data)


# ---- the book


def booked(read, command, image, setting):
    """The reading that the book holds after a command that was finished on a flash."""
    if command[0] == "repair":
        return read
    if command[0] == "create":
        at = lowest_start(read.table, view(image, setting).pointers, len(image), command[2])
        return Reading(with_slot(read.table, command[1], at, command[2]), read.order)
    slot = command[1]
    if command[0] == "delete":
        return Reading(without_slot(read.table, slot), [s - 1 if s > slot else s for s in read.order])
    rest = [s for s in read.order if s != slot]
    if command[0] == "enable":
        return Reading(read.table, [slot] + rest)
    if command[0] == "disable":
        return Reading(read.table, rest)
    if name(slots(read.table)[slot]) == command[2]:
        return read
    return Reading(with_name(read.table, slot, command[2]), read.order)


# ---- the quarry image and images like it

FIXED = [
    (b"BOOT_INFO", 0x0000, 0x2000, 1),
    (b"FACTORY_IMAGE", 0x2000, 0x2000, 1),
    (b"SPT0", 0x4000, 0x1000, 1),
    (b"SPT1", 0x5000, 0x1000, 1),
    (b"CPB0", 0x6000, 0x1000, 1),
    (b"CPB1", 0x7000, 0x1000, 1),
]
QUARRY_SLOTS = [(b"P1", 0x8000, 0x1000, 0), (b"P2", 0x9000, 0x1000, 0), (b"P3", 0xA000, 0x1000, 0)]


def make_entry(text, at, length, flags):
    return text.ljust(16, b"\0") + at.to_bytes(8, "little") + length.to_bytes(4, "little") + flags.to_bytes(4, "little")


def make_table(rows, count=None, version=0, magic=TABLE_MAGIC):
    count = len(rows) if count is None else count
    head = b"".join(field.to_bytes(4, "little") for field in (magic, version, count)) + bytes(20)
    return (head + b"".join(make_entry(*row) for row in rows)).ljust(BLOCK, b"\0")


def make_pointers(held, shape=TODAY, other=None):
    """A pointer block: `held` gives the values of the lowest places, or of places by number; `shape` its offset and
    count. Bytes that belong to no place are `other`, or, where none is given, 0 before the places and 0xFF behind."""
    held = held if isinstance(held, dict) else dict(enumerate(held))
    at, count = shape
    head = b"".join(field.to_bytes(4, "little") for field in (POINTERS_MAGIC, 0x18, BLOCK, 0, at, count))
    body = b"".join(pointer(held[k]) if k in held else ERASED for k in range(count))
    before, behind = (b"\0", b"\xff") if other is None else (other, other)
    return (head.ljust(at, before) + body).ljust(BLOCK, behind)


def make_image(length, tables, pointers, tables_at=(0x4000, 0x5000), pointers_at=(0x6000, 0x7000)):
    image = bytearray(b"\xff" * length)
    for at, data in zip(tables_at + pointers_at, tables + pointers):
        image[at : at + BLOCK] = data
    return bytes(image)


def quarry(held=(0x8000, 0x9000), rows=None, length=65536):
    table = make_table(FIXED + QUARRY_SLOTS if rows is None else rows)
    pointers = make_pointers(held)
    return make_image(length, (table, table), (pointers, pointers))


def main(words):
    if words == ["list"]:
        sys.stdout.write(listing(sys.stdin.buffer.read()))
    elif words == ["quarry"]:
        sys.stdout.buffer.write(quarry())
    else:
        sys.exit(__doc__)


if __name__ == "__main__":
    main(sys.argv[1:])
