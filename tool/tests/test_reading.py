"""What is read of an image: slots, tables, places, and where the tables are found."""

import os
import re
import struct

import images
from bench import Bench

SLOTS_BEFORE = [
    ["NAME: P1", "OFFSET: 0x0000000001000000", "SIZE: 0x01000000", "PRIORITY: 1", "Operation completed"],
    ["NAME: P2", "OFFSET: 0x0000000002000000", "SIZE: 0x01000000", "PRIORITY: [disabled]", "Operation completed"],
    ["NAME: P3", "OFFSET: 0x0000000003000000", "SIZE: 0x01000000", "PRIORITY: [disabled]", "Operation completed"],
]
SLOTS_AFTER = [
    ["NAME: P1", "OFFSET: 0x0000000001000000", "SIZE: 0x01000000", "PRIORITY: 2", "Operation completed"],
    ["NAME: P2", "OFFSET: 0x0000000002000000", "SIZE: 0x01000000", "PRIORITY: 1", "Operation completed"],
    ["NAME: P3", "OFFSET: 0x0000000003000000", "SIZE: 0x01000000", "PRIORITY: [disabled]", "Operation completed"],
]

RSU_LIST = """RSU: Sub-partition table 0 offset 0x00910000
RSU: Sub-partition table 1 offset 0x00918000
RSU: Sub-partition table content
BOOT_INFO Offset: 0x0000000000000000 Length: 0x00110000 Flag : 0x00000003
FACTORY_IMAGE Offset: 0x0000000000110000 Length: 0x00800000 Flag : 0x00000003
P1 Offset: 0x0000000001000000 Length: 0x01000000 Flag : 0x00000000
SPT0 Offset: 0x0000000000910000 Length: 0x00008000 Flag : 0x00000001
SPT1 Offset: 0x0000000000918000 Length: 0x00008000 Flag : 0x00000001
CPB0 Offset: 0x0000000000920000 Length: 0x00008000 Flag : 0x00000001
CPB1 Offset: 0x0000000000928000 Length: 0x00008000 Flag : 0x00000001
P2 Offset: 0x0000000002000000 Length: 0x01000000 Flag : 0x00000000
P3 Offset: 0x0000000003000000 Length: 0x01000000 Flag : 0x00000000
RSU: CMF pointer block offset 0x00920000
RSU: CMF pointer block's image pointer list
Priority 1 Offset: 0x0000000001000000 nslot: 0""".splitlines()


class Quarry(Bench):
    def setUp(self):
        super().setUp()
        self.image = self.put("quarry", images.quarry())

    def test_list(self):
        lines = self.done(self.image, "--list").lines
        self.assertEqual([line.split() for line in lines[1:]], [
            ["0", "P1", "0x0000000000008000", "0x00001000", "2"],
            ["1", "P2", "0x0000000000009000", "0x00001000", "1"],
            ["2", "P3", "0x000000000000a000", "0x00001000", "[disabled]"]])

    def test_slot_words(self):
        by_number = self.done(self.image, "--list", "1").out
        for words in [("--list", "P2"), ("--list", "=P2"), ("--list=1",), ("-l", "1"), ("-l1",)]:
            self.assertEqual(self.done(self.image, *words).out, by_number, words)
            self.assertEqual(self.done(*words, self.image).out, by_number, words)
        self.refused(7, self.image, "--list", "=1")

    def test_a_number_for_a_name(self):
        entries = [("1" if name == "P3" else name, *rest) for name, *rest in images.QUARRY]
        image = self.put("named", images.image(entries, [0x8000], 65536))
        self.assertIn("NAME: P2", self.done(image, "--list", "1").lines)
        self.assertIn("NAME: 1", self.done(image, "--list", "=1").lines)

    def test_word_after_list_is_the_image_if_none_is_left(self):
        table = self.done(self.image, "--list").out
        self.assertEqual(self.done("--list", self.image).out, table)
        self.assertEqual(self.done("-q", "-l", self.image).out, table)
        self.assertEqual(self.done("-l", "--", self.image).out, table)

    def test_setting_is_said_and_can_be_silenced(self):
        answer = self.done(self.image, "-c")
        self.assertIn("--base 0x0 --spt0 0x4000 --spt1 0x5000 --granule 4096 (taken for reading)", answer.err)
        self.assertEqual(answer.lines, ["number of slots is 3", "Operation completed"])
        self.assertEqual(self.done("-q", self.image, "-c").err, "")

    def test_places(self):
        flash = images.quarry([0x8000, 0, 0x9000, 0xFF0000000000A000, 0xA001])
        lines = [line.split() for line in self.done(self.put("dead", flash), "--places").lines[1:]]
        self.assertEqual(lines, [["0", "live", "0x0000000000008000", "P1", "(slot", "0)"], ["1", "spent", "0x0000000000000000"],
                                 ["2", "live", "0x0000000000009000", "P2", "(slot", "1)"], ["3", "part-written", "0xff0000000000a000"],
                                 ["4", "stray", "0x000000000000a001"]])

    def test_map(self):
        text = self.done(self.image, "--map").out
        for part in ["SPT0", "table, stands, agrees, read", "pointer block, stands, agrees\n", "slot 1, no. 1 of the boot order",
                     "slot 2, disabled", "20 KiB  free", "boot order: P2 (slot 1), P1 (slot 0)"]:
            self.assertIn(part, text)

    def test_check(self):
        self.assertIn("ok: tables agree, pointer blocks agree; places: 506 erased, 2 live, 0 spent, 0 part-written, 0 stray; starts: P2",
                      self.done(self.image, "--check").out)
        cut = images.quarry()
        cut[0x7000:0x7004] = b"\xff" * 4
        cut = self.put("cut", cut)
        self.refused(6, cut, "--check")
        answer = self.run_tool("--check", self.image, cut, self.path("none"), self.image)
        self.assertEqual(answer.status, 6)
        self.assertEqual(len(answer.lines), 3)
        self.assertIn("REPAIR: tables agree, pointer blocks CPB1 does not stand", answer.lines[1])

    def test_json(self):
        for words in [["--count"], ["--list"], ["--list", "0"], ["--size", "0"], ["--priority", "P3"], ["--table"], ["--map"],
                      ["--check"], ["--places"]]:
            self.assertEqual(self.done(self.image, "--json", *words).json()["spt0"], 0x4000, words)
        self.assertEqual(self.done(self.image, "--json", "-p", "2").json()["slot"]["priority"], "disabled")
        self.assertEqual(self.run_tool(self.image, "--json", "-p", "3").json()["refused"], 7)

    def test_names_of_any_bytes(self):
        entries = [('a"\xe9\n' if name == "P3" else name, *rest) for name, *rest in images.QUARRY]
        image = self.put("named", images.image(entries, [0xA000], 65536))
        self.assertEqual(self.done(image, "--list", "2").lines[0], 'NAME: a"??')
        self.assertEqual(self.done(image, "--list", "2", "--json").json()["slot"]["name"], 'a"\xe9\n')
        self.assertEqual(self.done(image, "-z", b'a"\xe9\n').lines, ["size of slot 2 is 4096"])


class Vendor(Bench):
    def setUp(self):
        super().setUp()
        self.image = self.path("vendor")
        images.write_vendor(self.image)

    def check_slots(self, image, slots):
        self.assertEqual(self.done(image, "--count").lines, ["number of slots is 3", "Operation completed"])
        for number, lines in enumerate(slots):
            self.assertEqual(self.done(image, "--list", number).lines, lines)

    def test_rsu_client(self):
        after = self.path("after")
        self.check_slots(self.image, SLOTS_BEFORE)
        self.done(self.image, "--granule", "4096", "--enable", "P2", "-o", after)
        self.check_slots(after, SLOTS_AFTER)
        self.assertTrue(self.done(after, "--size", "0").out.endswith(" 16777216\n"))
        self.assertTrue(self.done(after, "--priority", "0").out.endswith(" 2\n"))
        self.assertTrue(self.done(after, "--priority", "2").out.endswith(" [disabled]\n"))
        self.assertLess(os.stat(after).st_blocks * 512, 1 << 20, "holes stay holes")

    def test_rsu_list(self):
        lines = [re.sub(r" \((copy 0, )?read\)", "", " ".join(line.split())) for line in self.done(self.image, "--table").lines]
        self.assertEqual(lines, RSU_LIST)

    def test_dump_from_spt0_on(self):
        whole, part, base = self.path("whole"), self.path("part"), 0x910000
        with open(self.image, "rb") as file:
            file.seek(base)
            tables = file.read(0x100000)
        with open(part, "wb") as file:
            file.write(tables)
            file.truncate((256 << 20) - base)
        for start in (0x1000000, 0x2000000, 0x3000000):
            with open(part, "r+b") as file:
                file.seek(start - base)
                file.write(b"\1")
        self.check_slots(part, SLOTS_BEFORE)
        answer = self.done(part, "--granule", "4096", "-E", "1", "-o", self.path("part.after"))
        self.assertIn("--base 0x910000 --spt0 0x910000 --spt1 0x918000", answer.err)
        self.done(self.image, "--granule", "4096", "-E", "1", "-o", whole)
        with open(whole, "rb") as file:
            file.seek(base)
            self.assertEqual(file.read(0x100000), self.get("part.after")[:0x100000])
        self.assertEqual(os.path.getsize(self.path("part.after")), (256 << 20) - base)
        self.assertIn("(not in this file)", self.done(part, "--map").out)


class Finder(Bench):
    def two_layouts(self):
        flash = images.image(images.QUARRY, [0x8000], 131072)
        other = [(name, start + 0x10000 if start else 0, 0x1000 if start else 0x1000, flags)
                 for name, start, _, flags in images.QUARRY]
        for start, block in images.blocks(other, [0x19000]):
            flash[start : start + 4096] = block
        return self.put("two", flash)

    def test_two_layouts(self):
        image = self.two_layouts()
        answer = self.failed(122, "2 settings are found", image, "--list")
        self.assertIn("--base 0x0 --spt0 0x4000 --spt1 0x5000", answer.err)
        self.assertIn("--base 0x0 --spt0 0x14000 --spt1 0x15000", answer.err)
        self.assertIn("PRIORITY: 1", self.done(image, "--list", "1", "--spt0", "0x14000").lines)
        self.assertIn("PRIORITY: 1", self.done(image, "--list", "0", "--spt1", "0x5000").lines)

    def test_one_copy_is_enough(self):
        flash = images.quarry()
        flash[0x4000:0x5000] = b"\xff" * 4096
        self.assertIn("table, DOES NOT STAND", self.done(self.put("one", flash), "--map").out)

    def test_none(self):
        self.failed(122, "no table is found", self.put("none", b"\xff" * 65536), "--list")

    def test_bits_reversed(self):
        flash = bytes(int(f"{byte:08b}"[::-1], 2) for byte in images.quarry())
        self.failed(122, "programming file", self.put("reversed", flash), "--list")

    def test_another_version(self):
        flash = images.quarry()
        flash[0x4004] = flash[0x5004] = 1
        self.failed(122, "another version than 0", self.put("version", flash), "--list")

    def test_refused_proposal_is_explained(self):
        flash = images.quarry()
        flash[0x6000] = flash[0x7000] = 0
        image = self.put("pointers", flash)
        answer = self.failed(122, "--base 0x0 --spt0 0x4000 --spt1 0x5000   refused 5: ", image, "--list")
        self.assertIn("write the saved pointer block", answer.err)
        self.refused(5, image, "--list", "--spt0", "0x4000", "--spt1", "0x5000")

    def test_other_base(self):
        image = self.put("part", images.quarry()[0x2000:])
        self.failed(122, "no table is found", image, "--list")
        self.assertIn("number of slots is 3", self.done(image, "-c", "--base", "0x2000").lines)
        self.assertIn("number of slots is 3",
                      self.done(self.put("part0", images.quarry()[0x4000:]), "-c", "--spt0", "16384", "--spt1", "0x5000").lines)

    def test_base_by_the_second_table_alone_is_doubted(self):
        image = self.put("part", images.quarry()[0x3000:])
        self.assertIn("the dump may begin elsewhere", self.done(image, "-c").err)
        self.assertNotIn("elsewhere", self.done(image, "-c", "--base", "0x3000").err)
        self.assertNotIn("elsewhere", self.done(self.put("part0", images.quarry()[0x4000:]), "-c").err)

    def test_larger_granule_reads_another_copy(self):
        entries = [(name, start * 16 if start else 0, 0x10000, flags) for name, start, _, flags in images.QUARRY]
        flash = images.image(entries, [0x80000], 1 << 20)
        short = [(name, start, 0x1000 if name == "CPB0" else size, flags) for name, start, size, flags in entries]
        flash[0x40000:0x41000] = images.table(short)
        image = self.put("granule", flash)
        self.assertIn("with --granule 65536 another copy is read", self.done(image, "-c").err)
        self.assertNotIn("another copy", self.done(image, "-c", "--granule", "65536").err)
        self.assertNotIn("another copy", self.done(self.put("quarry", images.quarry()), "-c").err)

    def test_slot_before_the_base_is_not_enabled(self):
        entries = [("FACTORY_IMAGE", 0x2000, 0x1000, 1) if name == "FACTORY_IMAGE" else
                   ("P1", 0x3000, 0x1000, 0) if name == "P1" else (name, *rest) for name, *rest in images.QUARRY]
        flash = images.image(entries, [0x9000], 65536)
        part = self.put("part", flash[0x4000:])
        self.failed(122, "slot P1 before it, at 0x3000", part, "--granule", "4096", "--enable", "P1")
        self.done(part, "--granule", "4096", "--enable", "P3")
        self.done(self.put("whole", flash), "--granule", "4096", "--enable", "P1")

    def test_tables_before_the_base_are_not_written(self):
        entries = [(name, {"CPB0": 0x1000, "BOOT_INFO": 0}.get(name, start), 0x1000, flags) for name, start, _, flags in images.QUARRY]
        flash = images.image(entries, [0x8000], 65536)
        image = self.put("part", flash[0x4000:])
        self.assertIn("number of slots is 3", self.done(image, "-c").lines)
        self.failed(122, "CPB0 stands before it", image, "--granule", "4096", "--repair", "--in-place")
        self.assertEqual(self.get("part"), flash[0x4000:])


class OddFiles(Bench):
    def test_lengths(self):
        for length in (0, 1, 4095, 65535, 65537):
            self.refused(1, self.put("odd", bytes(images.quarry()[:length]).ljust(length, b"\xff")), "--list")
        with open(self.path("long"), "wb") as file:
            file.truncate((256 << 20) + 4096)
        self.refused(1, self.path("long"), "--list")

    def test_what_is_no_file(self):
        os.mkfifo(self.path("pipe"))
        self.failed(121, "is a folder", self.folder, "--list")
        self.failed(121, "No such file", self.path("none"), "--list")
        self.failed(121, "neither a file nor /dev/mtdN", self.path("pipe"), "--list")
        self.failed(121, "is a device but no flash", "/dev/null", "--list")

    def test_not_readable(self):
        image = self.put("secret", images.quarry())
        os.chmod(image, 0)
        options = {"user": 65534, "group": 65534, "extra_groups": []} if os.getuid() == 0 else {}
        self.failed(121, "Permission denied", image, "--list", **options)

    def test_random_bytes(self):
        flash = bytearray(struct.pack("<II", 0x57713427, 0) + os.urandom(4088)) * 16
        self.assertEqual(self.run_tool(self.put("random", flash), "--list").status, 122)
