"""Makes the images of crates/quarry_cases and crates/power_cuts, and what these programs must print.

    python3 tests/make_command_cases.py

What is printed follows from the reference: for a cut, what the flash then reads as; after every cut a repair must
keep the reading and make the pairs agree, and the further command must leave what the book says.
"""

import pathlib
import random

import reference
from reference import FIXED, LISTING, QUARRY_SLOTS, Refused, Setting, make_image, make_pointers, make_table, quarry

CRATES = pathlib.Path(__file__).parent.parent / "crates"
NEW_NAME = b"SOLVER_2027_JUL"
MIDDLE = Setting(32768, 0x10000, 0x18000)
WIDE = Setting(65536, 0x20000, 0x30000)
CPB0, CPB1 = 0x6000, 0x7000
MOVED_STARTS = (0x11000, 0x10000, 0xA000)


# ---- images


def sent(image, starts=(0x8000, 0x9000, 0xA000), at=0):
    """The image with this byte of the slots at these addresses 0: they are not empty."""
    image = bytearray(image)
    for start in starts:
        image[start + at] = 0
    return bytes(image)


MOVED = FIXED + [(b"P1", 0x11000, 0x1000, 0), (b"P2", 0x10000, 0x1000, 0), QUARRY_SLOTS[2]]


def moved(held):
    """Case 9: P1 moved to 0x11000 and P2 to 0x10000."""
    return quarry(held, MOVED, 73728)


def on_granules(size):
    """The six entries and three slots on granules of this many bytes."""
    names = [row[0] for row in FIXED]
    rows = [(name, size * k, size, 1) for k, name in enumerate(names)]
    rows += [(name, 6 * size + 0x1000 * k, 0x1000, 0) for k, (name, *rest) in enumerate(QUARRY_SLOTS)]
    table, pointers = make_table(rows), make_pointers((6 * size, 6 * size + 0x1000))
    return make_image(7 * size, (table, table), (pointers, pointers), (2 * size, 3 * size), (4 * size, 5 * size))


def with_entries(count):
    """Case 10: 118 more slots of 0x1000 from 0xB000, and this number in the header."""
    more = [(b"Q%d" % k, 0xB000 + 0x1000 * k, 0x1000, 0) for k in range(118)]
    table, pointers = make_table(FIXED + QUARRY_SLOTS + more, count), make_pointers((0x8000, 0x9000))
    return make_image(0xB000 + 118 * 0x1000, (table, table), (pointers, pointers))


def shaped(shape, held, rows=None, length=65536, starts=(0x8000, 0x9000, 0xA000), second=None):
    """An image with pointer blocks of this offset and count, and 0x5A where no place is; CPB1 may be another block."""
    table = make_table(FIXED + QUARRY_SLOTS if rows is None else rows)
    pointers = make_pointers(held, shape, b"\x5a")
    return sent(make_image(length, (table, table), (pointers, second or pointers)), starts)


def damaged(at):
    """The quarry image with the last byte of the blocks at these addresses turned, so that their pairs disagree."""
    image = bytearray(sent(quarry()))
    for start, k in at:
        image[start + k] ^= 1
    return bytes(image)


IMAGES = {
    "quarry": quarry(),
    "quarry_sent": sent(quarry()),
    "last_byte_sent": sent(quarry(), (0xA000,), 4095),
    "highest_506": sent(quarry({0: 0x8000, 1: 0x9000, 506: 0x9000})),
    "highest_507": sent(quarry({0: 0x8000, 1: 0x9000, 507: 0x9000})),
    "moved": moved((0x11000, 0x10000)),
    "moved_sent": sent(moved((0x11000, 0x10000)), MOVED_STARTS),
    "moved_three": sent(moved((0x10000, 0xA000, 0x11000)), MOVED_STARTS),
    "first_copies_damaged": damaged([(0x4000, 0), (CPB0, 3)]),
    "second_copies_damaged": damaged([(0x5000, 4095), (CPB1, 4095)]),
    "middle": sent(on_granules(32768), (0x30000, 0x31000, 0x32000)),
    "wide": sent(on_granules(65536), (0x60000, 0x61000, 0x62000)),
    "offset_0x28": shaped((0x28, 507), (0x8000, 0x9000)),
    "one_place": shaped((4088, 1), (0x9000,)),
    "four_places": shaped((0x20, 4), (0x8000, 0x9000, 0x8000, 0x9000)),
    "moved_offset_2048": shaped((2048, 256), (0x10000, 0xA000, 0x11000), MOVED, 73728, MOVED_STARTS),
    "two_shapes": shaped((0x28, 3), (0x8000, 0x9000), second=make_pointers((0xA000,))),
    "entries_127": with_entries(127),
    "entries_128": with_entries(128),
    "no_bytes": b"",
    "held": quarry((0x8000, 0x9000, 0xA000), FIXED + QUARRY_SLOTS[:2]),
}


IMAGES["deleted"] = reference.apply(
    IMAGES["quarry_sent"], reference.start(IMAGES["quarry_sent"], LISTING, ("delete", 2)), LISTING.granule
)


# ---- the cases of document 01, and of document 02, Nos. 2, 9 and 5


def title(command):
    if command[0] == "create":
        return f"create {command[2]}"
    return command[0] if command[0] == "repair" else f"{command[0]} {command[1]}"


class Run:
    """An image under commands, and the lines printed on the way."""

    def __init__(self, heading, name):
        self.image = IMAGES[name]
        self.lines = [heading]

    def order(self):
        try:
            order = reference.reading(self.image, LISTING).order
            self.lines.append(" ".join(["order"] + [str(slot) for slot in order]))
        except Refused as refusal:
            self.lines.append(f"refused {refusal.number}")

    def finish(self, *command, shown=None):
        try:
            steps = reference.start(self.image, LISTING, command)
            self.image = reference.apply(self.image, steps, LISTING.granule)
            done = f"{len(steps)} steps"
        except Refused as refusal:
            done = f"refused {refusal.number}"
        self.lines.append(f"{shown or title(command)}: {done}")

    def rename(self, name):
        self.finish("rename", 0, name, shown=f"rename 0 {name.decode()}")

    def cut(self, command, done):
        steps = reference.start(self.image, LISTING, command)
        self.image = reference.cut(self.image, steps, LISTING.granule, done)
        self.lines.append(f"{title(command)}: cut after {done} steps")

    def place(self, k):
        for name, at in (("CPB0", CPB0), ("CPB1", CPB1)):
            value = reference.number(reference.places(reference.block(self.image, at))[k])
            self.lines.append(f"{name} place {k}: {value:016x}")


def cases():
    run = Run("case 1", "quarry")
    run.order()
    yield run
    run = Run("case 3", "quarry_sent")
    run.finish("enable", 1)
    yield run
    for heading, name, place in (
        ("case 2", "quarry_sent", 2),
        ("case 7, highest used place 506", "highest_506", 507),
        ("case 7, highest used place 507", "highest_507", 507),
    ):
        run = Run(heading, name)
        run.finish("enable", 2)
        run.place(place)
        run.order()
        yield run
    run = Run("case 4", "quarry_sent")
    run.finish("enable", 0)
    run.place(2)
    run.order()
    run.finish("disable", 0)
    run.order()
    yield run
    run = Run("case 5", "quarry")
    run.finish("disable", 2)
    run.finish("enable", 3)
    run.finish("disable", 3)
    yield run
    run = Run("case 6", "quarry_sent")
    run.cut(("enable", 2), 15)
    run.place(2)
    run.order()
    run.finish("repair")
    run.finish("enable", 2)
    run.place(3)
    run.order()
    yield run
    for heading, done in (("case 8, after 4,101 steps", 4101), ("case 8, after 4,102 steps", 4102)):
        run = Run(heading, "highest_507")
        run.cut(("enable", 2), done)
        run.order()
        yield run
    for slot in (0, 1):
        run = Run(f"case 9, slot {slot}", "moved")
        run.finish("disable", slot)
        yield run
    run = Run("case 10, names", "quarry")
    run.rename(b"fifteen_bytes_x")
    run.rename(b"sixteen_bytes_xx")
    run.order()
    yield run
    for heading, name in (
        ("case 10, 127 entries", "entries_127"),
        ("case 10, 128 entries", "entries_128"),
        ("case 10, 0 bytes", "no_bytes"),
    ):
        run = Run(heading, name)
        run.order()
        yield run


def empty_slots():
    run = Run("empty slots", "quarry")
    run.finish("enable", 1)
    run.finish("enable", 2)
    run.order()
    yield run
    run = Run("a slot of which only byte 4,095 was sent", "last_byte_sent")
    run.finish("enable", 2)
    run.place(2)
    run.order()
    yield run


def other_shapes():
    run = Run("offset 0x28, 507 places", "offset_0x28")
    run.finish("enable", 2)
    run.place(2)
    run.order()
    yield run
    run = Run("offset 4,088, 1 place", "one_place")
    run.finish("enable", 1)
    run.finish("enable", 2)
    run.finish("disable", 1)
    run.finish("enable", 2)
    run.order()
    yield run
    run = Run("offset 0x20, 4 places", "four_places")
    run.finish("enable", 2)
    run.place(3)
    run.order()
    yield run
    run = Run("two copies of different shape", "two_shapes")
    run.order()
    run.finish("enable", 2)
    run.finish("repair")
    run.finish("enable", 2)
    run.order()
    yield run


def created(run):
    run.finish("create", b"P4", 0x1000, shown="create P4 4096")
    table = reference.view(run.image, LISTING).table
    run.lines.append(f"SPT0 entry {len(reference.entries(table)) - 1} start: {reference.entries(table)[-1].start:016x}")
    run.order()


def slots_come_and_go():
    run = Run("create in the room of a deleted slot", "quarry")
    run.finish("delete", 1)
    run.finish("delete", 2)
    run.order()
    created(run)
    yield run
    run = Run("create where a place holds the lowest free start", "held")
    created(run)
    yield run


def in_order(runs):
    """By the numbers of the cases, which the headings begin with."""
    return sorted(runs, key=lambda run: int("".join(c for c in run.lines[0].split(",")[0] if c.isdigit())))


# ---- power cuts


def wiped(granule, chosen):
    return bytes(0xFF if chosen(i) else 0 for i in range(granule))


def wiped_choices(granule):
    """Which bytes of the granule an erase that is cut has wiped: nothing, all, each of the first 32 alone, all but each of
    these, so many of the lowest and of the highest in steps of 64, even ones, odd ones, and 64 choices by chance."""
    none, every = bytes(granule), b"\xff" * granule
    choices = [none, every]
    for k in range(32):
        alone = none[:k] + b"\xff" + none[k + 1 :]
        choices += [alone, bytes(b ^ 0xFF for b in alone)]
    for k in range(64, granule, 64):
        choices += [every[:k] + none[k:], none[k:] + every[:k]]
    choices += [wiped(granule, lambda i: i % 2 == 0), wiped(granule, lambda i: i % 2 == 1)]
    for seed in range(64):
        chance = random.Random(seed)
        choices.append(wiped(granule, lambda i: chance.random() < 0.5))
    return choices


def reading_or_none(image, setting):
    try:
        return reference.reading(image, setting)
    except Refused:
        return None


def tried(image, setting, command):
    """The line of a command that is cut at every step and inside every erase."""
    try:
        steps = reference.start(image, setting, command)
    except Refused as refusal:
        return f"{title(command)}: refused {refusal.number}"
    old = reference.reading(image, setting)
    new = reference.booked(old, command, image, setting)
    flash = bytearray(image)
    counts = {"old": 0, "new": 0, "neither": 0}
    inside = wiped_choices(setting.granule)
    for step in steps:
        choices = inside if step[0] == "erase" else [b""]
        for choice in choices:
            cut = reading_or_none(reference.cut(bytes(flash), [step], setting.granule, 0, choice), setting)
            counts["old" if cut == old else "new" if cut == new else "neither"] += 1
        if step[0] == "program":
            flash[step[1]] &= step[2]
        else:
            flash[step[1] : step[1] + setting.granule] = b"\xff" * setting.granule
    cuts = sum(counts.values())
    read = ", ".join(f"{count} {what}" for what, count in counts.items())
    return f"{title(command)}: {len(steps)} steps, {cuts} cuts: {read}; {cuts} repaired, {cuts} then right"


POWER_CUTS = ["quarry_sent", "highest_506", "highest_507", "moved_sent", "moved_three"]
POWER_CUTS += ["first_copies_damaged", "second_copies_damaged"]
POWER_CUTS += ["four_places", "moved_offset_2048", "two_shapes", "deleted", "middle", "wide"]


def power_cuts():
    commands = []
    for slot in range(3):
        commands += [("enable", slot), ("disable", slot), ("rename", slot, NEW_NAME), ("delete", slot)]
    commands += [("create", NEW_NAME, 0x1000), ("repair",)]
    for name in POWER_CUTS:
        setting = {"middle": MIDDLE, "wide": WIDE}.get(name, LISTING)
        yield f"{name}.img, each erase cut {len(wiped_choices(setting.granule))} times"
        for command in commands:
            yield tried(IMAGES[name], setting, command)


def write(crate, names, lines):
    data = CRATES / crate / "data"
    data.mkdir(parents=True, exist_ok=True)
    for name in names:
        (data / f"{name}.img").write_bytes(IMAGES[name])
    (CRATES / crate / "stdout").write_text("".join(line + "\n" for line in lines))


def main():
    write(
        "quarry_cases",
        ["quarry", "quarry_sent", "highest_506", "highest_507", "moved"]
        + ["entries_127", "entries_128", "no_bytes", "last_byte_sent"]
        + ["offset_0x28", "one_place", "four_places", "two_shapes", "held"],
        [
            line
            for run in in_order(cases()) + list(empty_slots()) + list(other_shapes()) + list(slots_come_and_go())
            for line in run.lines
        ],
    )
    write("power_cuts", POWER_CUTS, list(power_cuts()))


if __name__ == "__main__":
    main()
