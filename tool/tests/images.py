"""Images for the tests: document 01's quarry image, and the vendor's table of source document 000."""

import struct

ERASED = b"\xff"
BLOCK = 4096

QUARRY = [
    ("BOOT_INFO", 0x0000, 0x2000, 1),
    ("FACTORY_IMAGE", 0x2000, 0x2000, 1),
    ("SPT0", 0x4000, 0x1000, 1),
    ("SPT1", 0x5000, 0x1000, 1),
    ("CPB0", 0x6000, 0x1000, 1),
    ("CPB1", 0x7000, 0x1000, 1),
    ("P1", 0x8000, 0x1000, 0),
    ("P2", 0x9000, 0x1000, 0),
    ("P3", 0xA000, 0x1000, 0),
]

# as `rsu list` prints it in section 5.2.3
VENDOR = [
    ("BOOT_INFO", 0x0000000, 0x0110000, 3),
    ("FACTORY_IMAGE", 0x0110000, 0x0800000, 3),
    ("P1", 0x1000000, 0x1000000, 0),
    ("SPT0", 0x0910000, 0x0008000, 1),
    ("SPT1", 0x0918000, 0x0008000, 1),
    ("CPB0", 0x0920000, 0x0008000, 1),
    ("CPB1", 0x0928000, 0x0008000, 1),
    ("P2", 0x2000000, 0x1000000, 0),
    ("P3", 0x3000000, 0x1000000, 0),
]
VENDOR_LENGTH = 256 << 20


def table(entries, bytes_12_to_15=0):
    rows = b"".join(struct.pack("<16sQII", name.encode("latin-1"), start, size, flags) for name, start, size, flags in entries)
    return (struct.pack("<IIII", 0x57713427, 0, len(entries), bytes_12_to_15) + bytes(16) + rows).ljust(BLOCK, b"\0")


def pointers(values):
    header = struct.pack("<IIIIII", 0x57789609, 0x18, BLOCK, 0, 0x20, 508) + bytes(8)
    return (header + b"".join(struct.pack("<Q", value) for value in values)).ljust(BLOCK, ERASED)


def starts(entries):
    return {name: start for name, start, _, _ in entries}


def blocks(entries, values, bytes_12_to_15=0):
    """The four blocks: address and bytes of each."""
    at = starts(entries)
    both = [table(entries, bytes_12_to_15)] * 2 + [pointers(values)] * 2
    return [(at[name], block) for name, block in zip(("SPT0", "SPT1", "CPB0", "CPB1"), both)]


def image(entries, values, length, bytes_12_to_15=0):
    flash = bytearray(ERASED * length)
    for start, block in blocks(entries, values, bytes_12_to_15):
        flash[start : start + BLOCK] = block
    for name, start, _, flags in entries:
        if flags == 0:  # a slot with an image sent
            flash[start] = 0
    return flash


def quarry(values=(0x8000, 0x9000), bytes_12_to_15=0):
    return image(QUARRY, values, 65536, bytes_12_to_15)


def write_vendor(path, entries=None, values=(0x1000000,)):
    """The vendor's layout in a file of 256 MiB that has hardly any data."""
    entries = entries or VENDOR
    with open(path, "wb") as file:
        file.truncate(VENDOR_LENGTH)
        for start, block in blocks(entries, values):
            file.seek(start)
            file.write(block.ljust(0x8000, ERASED))
        for name, start, _, flags in entries:
            if flags == 0:
                file.seek(start)
                file.write(b"\1")


def moved(entries, by):
    """The same layout with its tables and slots further up."""
    return [(name, start + by if start >= by else start, size, flags) for name, start, size, flags in entries]
