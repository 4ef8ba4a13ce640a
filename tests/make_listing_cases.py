"""Makes the images of crates/listing_cases, and what the program must print for them.

    python3 tests/make_listing_cases.py
"""

import pathlib

from reference import FIXED, LISTING, QUARRY_SLOTS, cut, listing, make_image, make_pointers, make_table, quarry, start

CRATE = pathlib.Path(__file__).parent.parent / "crates" / "listing_cases"
LENGTH = 0xB000
TABLE = make_table(FIXED + QUARRY_SLOTS)
POINTERS = make_pointers((0x8000, 0x9000))
OTHER_TABLE = make_table(FIXED + [(b"Q1", 0x9000, 0x1000, 0), (b"Q2", 0x8000, 0x1000, 0)])
OTHER_POINTERS = make_pointers((0xA000, 0x8000))


def image(tables=(TABLE, TABLE), pointers=(POINTERS, POINTERS), length=LENGTH):
    return make_image(length, tables, pointers)


def with_slots(slots, held=(0x8000, 0x9000), length=LENGTH, **fields):
    """An image whose two tables have these slots after the six entries."""
    table = make_table(FIXED + slots, **fields)
    pointers = make_pointers(held)
    return make_image(length, (table, table), (pointers, pointers))


def damaged(block, at):
    """The block with one bit of a byte turned."""
    return block[:at] + bytes([block[at] ^ 1]) + block[at + 1 :]


def cases():
    p1, p2, p3 = QUARRY_SLOTS
    eight = [(b"P%d" % k, 0x7000 + 0x1000 * k, 0x1000, 0) for k in range(1, 9)]
    unprintable = [
        (b"\x01\x20\x21~\x7f\x80\xff", 0x8000, 0x1000, 0),
        (b"a b\nc", 0x9000, 0x1000, 0),
        (b"fifteen_bytes_x", 0xA000, 0x1000, 0),
    ]
    # dead: 0, SPT0's start, a system entry, past a start, half written, half cleared
    strays = {
        0: 0x8000,
        1: 0,
        2: 0x9000,
        3: 0x4000,
        4: 0x8000,
        5: 0xFF0000000000A000,
        6: 0x8001,
        7: 0x9000,
        9: 0xA00,
        506: 0x8000,
        507: 0x2000,
    }
    # each of the three kinds at place 0, in the middle and at the last place; the least and the greatest value of each
    low = {"spent": 0, "part-written": 0xFF00000000000000, "stray": 1}
    high = {"spent": 0, "part-written": 0xFFFFFFFFFFFFFFFE, "stray": 0xFEFFFFFFFFFFFFFF}
    kinds = ["spent", "part-written", "stray"]
    at_the_ends = {
        f"dead_{'_'.join(turn).replace('-', '_')}": with_slots(
            [p1, p2, p3], {0: low[turn[0]], 1: 0x8000, 253: high[turn[1]], 254: 0x9000, 507: high[turn[2]]}
        )
        for turn in (kinds, kinds[1:] + kinds[:1], kinds[2:] + kinds[:2])
    }
    every_kind = [0, 0xFF0000000000A000, 0x9001, 0x4000, 0xFFFFFFFFFFFF9000, 12345678901234567890]
    # case 6: the first 15 steps of enabling slot 2, whose first byte is 0
    filled = quarry()[:0xA000] + b"\0" + quarry()[0xA001:]
    case_6 = cut(filled, start(filled, LISTING, ("enable", 2)), 4096, 15)
    return {
        "empty_order": image(pointers=(make_pointers(()), make_pointers(()))),
        "no_bytes": b"",
        "one_byte_too_many": quarry() + b"\xff",
        "one_granule_too_many": quarry(length=69632),
        "no_table": image(tables=(damaged(TABLE, 0), damaged(TABLE, 4))),
        "no_magic": image(tables=(damaged(TABLE, 0), damaged(TABLE, 1))),
        "no_pointers": image(pointers=(damaged(POINTERS, 3), damaged(POINTERS, 0x11))),
        "second_table": image(tables=(damaged(TABLE, 3), OTHER_TABLE)),
        "second_pointers": image(pointers=(damaged(POINTERS, 0x14), OTHER_POINTERS)),
        "pairs_differ": image(tables=(TABLE, OTHER_TABLE), pointers=(POINTERS, OTHER_POINTERS)),
        "unprintable_names": with_slots(unprintable, (0x8000, 0x9000, 0xA000)),
        "duplicates_and_strays": with_slots([p1, p2, p3], strays),
        "flags": with_slots([(b"P1", 0x8000, 0x1000, 2), (b"P2", 0x9000, 0x1000, 0xFFFFFFFC), p3], (0x8000, 0x9000, 0xA000)),
        "start_wraps": with_slots([p1, (b"P2", 0xFFFFFFFFFFFFF000, 0x2000, 0)]),
        "longest_length": with_slots([p1, (b"P2", 0x9000, 0xFFFFF000, 0)]),
        "name_of_16": with_slots([(b"sixteen_bytes_xx", 0x8000, 0x1000, 0), p2]),
        "no_entries": with_slots([p1, p2, p3], count=0),
        "entries_128": with_slots([p1, p2, p3], count=128),
        "overlap": with_slots([(b"P1", 0x8000, 0x2000, 0), p2, p3]),
        "touching": with_slots([p2, (b"P1", 0x8000, 0x1000, 0), p3], (0xA000, 0x8000, 0x9000)),
        "all_eight": with_slots(eight, [at for name, at, size, flags in eight], length=65536),
        **at_the_ends,
        "all_places_dead": with_slots([p1, p2, p3], [every_kind[k % 6] for k in range(508)]),
        "none_dead": with_slots([p1, p2, p3], {0: 0x8000, 1: 0x8000, 253: 0x9000, 507: 0xA000}),
        "dead_and_no_order": with_slots([p1, p2, p3], {2: 0}),
        "case_6_cut": case_6,
    }


def main():
    data = CRATE / "data"
    data.mkdir(parents=True, exist_ok=True)
    made = cases()
    for name, content in made.items():
        (data / f"{name}.img").write_bytes(content)
    (CRATE / "args").write_text("".join(f"{name}.img\n" for name in made))
    (CRATE / "stdout").write_text("".join(f"{name}.img\n{listing(content)}" for name, content in made.items()))
    listing_crate = CRATE.parent / "listing"
    (listing_crate / "stdin").write_bytes(quarry())
    (listing_crate / "stdout").write_text(listing(quarry()))


if __name__ == "__main__":
    main()
