"""The flashes that are cut and the commands that are cut on them: all of it data. A new command is a line in COMMANDS."""

import collections
import os
import sys

ROOT = os.path.dirname(os.path.dirname(os.path.dirname(os.path.abspath(__file__))))
sys.path.insert(0, os.path.join(ROOT, "tool", "tests"))
import images  # pylint: disable=wrong-import-position

ERASE_SIZES = (4096, 32768, 65536)
BLOCKS = ("SPT0", "SPT1", "CPB0", "CPB1")
SYSTEM = ("BOOT_INFO", "FACTORY_IMAGE") + BLOCKS
SLOTS = ("P1", "P2", "P3", "P4")
SLOT_LENGTH = 0x1000
ROOM_AFTER_SLOTS = 0x4000
REST = b"\xa5"  # what a granule holds after its block, so that an erase can be seen to its end

# places: what the pointer block holds, lowest first. torn: blocks whose first bytes are lost at the start.
# words: for rsu-image. line: for the independent implementation, `{NAME}` being the number of that slot in the flash it
# is given. again: what the tool answers to the same command where the new reading is there already (0: it finishes).
Command = collections.namedtuple("Command", "name places torn words line again")


def name_line(name):
    return name.encode().hex()


COMMANDS = (
    Command("enable", ["P1", "P2"], [], ["--enable", "P3"], "enable {P3}", 0),
    Command("enable, block full", ["P1", "P2"] * 254, [], ["--enable", "P3"], "enable {P3}", 0),
    Command("disable", ["P2", "P1"], [], ["--disable", "P1"], "disable {P1}", 8),
    Command("disable, three places", ["P1", "P2", "P1", "P3", "P1"], [], ["--disable", "P1"], "disable {P1}", 8),
    Command("disable by a rewrite", ["P1", "P2"], [], ["--disable", "P2"], "disable {P2}", 8),
    Command("rename", ["P1", "P2"], [], ["--rename", "0", "fifteen-bytes.."], "rename 0 " + name_line("fifteen-bytes.."), 0),
    Command("create", ["P1", "P2"], [], ["--create", "P5", "8192"], "create 8192 " + name_line("P5"), 10),
    Command("delete, first slot", ["P3", "P2"], [], ["--delete", "P1"], "delete {P1}", 7),
    Command("delete, last slot", ["P1", "P2"], [], ["--delete", "P4"], "delete {P4}", 7),
    Command("repair, pointer block", ["P1", "P2"], ["CPB1"], ["--repair"], "repair", 0),
    Command("repair, table and pointer block", ["P1", "P2"], ["SPT0", "CPB0"], ["--repair"], "repair", 0),
)

# What a list is drawn from: slots by number, since a rename changes the names. Delete takes a name alone: `{1}` is the
# name that slot 1 has then.
LIST_COMMANDS = (
    [(["--enable", str(slot)], f"enable {slot}") for slot in range(len(SLOTS) + 1)]
    + [(["--disable", str(slot)], f"disable {slot}") for slot in range(len(SLOTS))]
    + [(["--rename", str(slot), name], f"rename {slot} {name_line(name)}") for slot, name in enumerate(("NEW", "P2", "P3", "R4"))]
    + [(["--create", name, str(size)], f"create {size} {name_line(name)}")
       for name, size in (("C1", 0x1000), ("C2", 0x2000), ("C3", 0x1000), ("P4", 0x1000))]
    + [(["--delete", f"{{{slot}}}"], f"delete {slot}") for slot in range(len(SLOTS) + 1)]
    + [(["--repair"], "repair")] * 4
)


def entries(erase_size):
    """The partitions: the six of the system a granule each, then the slots. Clearing the low two bytes of P2's start
    names P1, so that disabling P2 must rewrite."""
    rows = [(name, number * erase_size, erase_size, 1) for number, name in enumerate(SYSTEM)]
    first = -(-len(SYSTEM) * erase_size // 0x10000) * 0x10000
    return rows + [(name, first + number * SLOT_LENGTH, SLOT_LENGTH, 0) for number, name in enumerate(SLOTS)]


def length(erase_size):
    last = entries(erase_size)[-1]
    end = last[1] + last[2] + ROOM_AFTER_SLOTS
    return -(-end // erase_size) * erase_size


def block_starts(erase_size):
    at = images.starts(entries(erase_size))
    return [at[name] for name in BLOCKS]


def start_image(command, erase_size):
    """The flash as it is before the command."""
    at = images.starts(entries(erase_size))
    flash = images.image(entries(erase_size), [at[name] for name in command.places], length(erase_size))
    for name in BLOCKS:
        flash[at[name] + images.BLOCK : at[name] + erase_size] = REST * (erase_size - images.BLOCK)
    for name in command.torn:
        flash[at[name] : at[name] + 16] = images.ERASED * 16
    return bytes(flash)


def setting_words(erase_size):
    """Where rsu-image is told that the tables stand."""
    spt0, spt1 = block_starts(erase_size)[:2]
    return ["--base", "0", "--spt0", str(spt0), "--spt1", str(spt1), "--granule", str(erase_size)]
