"""Commands: what they would do, what a power failure leaves, refusals, and writing."""

import os
import resource
import subprocess
import unittest

import images
from bench import AT_CALL, IS_SANITIZED, RSU_IMAGE, Bench, refusals

GRANULE = ("--granule", "4096")
FULL = [0x8000, 0x9000] * 254


def cut_pointers():
    """Case 6: enable 2 cut after 15 steps."""
    flash = images.quarry()
    flash[0x7030:0x7038] = (0xA000).to_bytes(8, "little")
    flash[0x6030:0x6037] = (0xA000).to_bytes(7, "little")
    return flash


class DryRun(Bench):
    def setUp(self):
        super().setUp()
        self.image = self.put("quarry", images.quarry())

    def test_says_what_it_would_do(self):
        lines = self.done(self.image, *GRANULE, "--enable", "P3").lines
        self.assertEqual(lines, ["boot order now:   P2 (slot 1), P1 (slot 0)",
                                 "boot order after: P3 (slot 2), P2 (slot 1), P1 (slot 0)",
                                 "16 steps: 16 bytes programmed, 0 granules erased; in CPB1, then CPB0"])
        self.assertEqual(self.get("quarry"), images.quarry())
        self.assertEqual(os.listdir(self.folder), ["quarry"])

    def test_needs_the_granule(self):
        self.failed(120, "--granule", self.image, "--enable", "P3")

    def test_rename(self):
        self.assertIn("slot 2:           P3 becomes P4", self.done(self.image, *GRANULE, "--rename", "P3", "P4").lines)
        self.assertIn("slot 2:           P3 becomes -q", self.done(self.image, *GRANULE, "--rename", "P3", "-q").lines)

    def test_checksum_warning(self):
        image = self.put("checksum", images.quarry(bytes_12_to_15=7))
        self.assertIn("bytes 12 to 15", self.done(image, *GRANULE, "--rename", "P3", "P4").err)
        self.assertNotIn("bytes 12 to 15", self.done(image, *GRANULE, "--enable", "P3").err)
        self.assertNotIn("bytes 12 to 15", self.done(self.image, *GRANULE, "--rename", "P3", "P4").err)

    def test_usage(self):
        for words in [[], [self.image], ["--list"], [self.image, "-l", "-c"], [self.image, "--enable"], [self.image, "--what"],
                      [self.image, self.image, "--count"], [self.image, "-c", "--base", "4097"], [self.image, "-c", "--base", "x"],
                      [self.image, "-c", "--explain"], [self.image, "-c", "-o", "x"], [self.image, "--rename", "P1"],
                      [self.image, *GRANULE, "--repair", "--in-place", "--dry-run"], [self.image, *GRANULE, "--repair", "--device"]]:
            answer = self.run_tool(*words)
            self.assertEqual((answer.status, answer.out), (120, ""), words)
            self.assertNotEqual(answer.err, "")
        self.assertIn("usage: rsu-image IMAGE", self.done("--help").out)
        self.assertEqual(self.done("--version").lines, ["rsu-image 1"])


class Explain(Bench):
    def lines(self, flash, *words):
        return self.done(self.put("image", flash), *GRANULE, *words, "--explain").lines[3:]

    def repair_steps(self):
        flash = cut_pointers()
        return self.done(self.put("cut", flash), *GRANULE, "--repair", "--json").json()["steps"]

    def test_enable(self):
        lines = self.lines(images.quarry(), "--enable", "P3")
        self.assertEqual(lines[:4], ["power fails before step 16 of 16: P2 starts, as now", "after it: P3 starts",
                                     "no other slot can start first", f"then: repair, {self.repair_steps():,} steps"])

    def test_rewrite(self):
        flash = images.quarry(FULL)
        steps = self.repair_steps()
        lines = self.lines(flash, "--enable", "P3")
        self.assertEqual(lines[:4], [f"power fails before step {steps + 1:,} of {2 * steps:,}: P2 starts, as now",
                                     "after it: P3 starts", "no other slot can start first",
                                     f"then: repair, {steps:,} steps"])

    def test_disable_of_the_second(self):
        lines = self.lines(images.quarry(), "--disable", "P1")
        self.assertIn("P2 starts, as now; the boot order is then: P2 (slot 1)", lines[1])
        self.assertEqual(lines[2], "no other slot can start first")

    def test_disable_of_the_only_one(self):
        self.assertIn("after it: the factory image starts", self.lines(images.quarry([0x8000]), "--disable", "P1"))

    def test_rename_and_repair(self):
        lines = self.done(self.put("image", images.quarry()), *GRANULE, "--rename", "P2", "NEW", "--explain").lines[4:]
        self.assertIn("P2 starts, as now; slot 1 is then named NEW", lines[1])
        self.assertEqual(self.lines(cut_pointers(), "--repair")[0], "power fails at any moment: P2 starts, as now")

    def test_json(self):
        image = self.put("image", images.quarry(FULL))
        story = self.done(image, *GRANULE, "--enable", "P3", "--explain", "--json").json()["explain"]
        steps = self.repair_steps()
        self.assertEqual([[slot["name"] for slot in stretch["order"]] for stretch in story["stretches"]],
                         [["P2", "P1"], ["P3", "P2", "P1"]])
        self.assertTrue(story["no_other_slot_first"])
        self.assertEqual(story["repair_steps"], [steps])
        self.assertGreater(story["states"], 2 * steps + 20)


class CreateAndDelete(Bench):
    """Slots come and go. P3 is the quarry image's slot that is not in the boot order; its room begins at 0xA000."""

    without_p3 = images.QUARRY[:-1]
    with_p4 = without_p3 + [("P4", 0xA000, 0x1000, 0)]

    def setUp(self):
        super().setUp()
        self.image = self.put("quarry", images.quarry())

    def start_of(self, image, name, *words):
        """Where a create would put the slot."""
        answer = self.done(image, *GRANULE, "--create", name, *words, "--json").json()
        return answer["slots"][-1]["name"], answer["slots"][-1]["start"]

    def test_say_what_they_would_do(self):
        order = ["boot order now:   P2 (slot 1), P1 (slot 0)", "boot order after: P2 (slot 1), P1 (slot 0)"]
        steps = "8,202 steps: 8,200 bytes programmed, 2 granules erased; in SPT1, then SPT0"
        self.assertEqual(self.done(self.image, *GRANULE, "--create", "P4", "0x2000", "--dry-run").lines,
                         [*order, "slot 3:           P4 is new, 8,192 bytes at 0xb000", steps])
        self.assertEqual(self.done(self.image, *GRANULE, "--delete", "P3").lines,
                         [*order, "slot 2:           P3 is deleted", steps])
        self.assertEqual(self.get("quarry"), images.quarry())
        self.assertEqual(os.listdir(self.folder), ["quarry"])

    def test_room_that_was_freed(self):
        self.done(self.image, *GRANULE, "--delete", "P3", "--in-place")
        without = images.image(self.without_p3, [0x8000, 0x9000], 65536)
        without[0xA000] = 0  # the image stays
        self.assertEqual(self.get("quarry"), without)
        self.done(self.image, *GRANULE, "--create", "P4", "4096", "--in-place")
        self.assertEqual(self.get("quarry"), images.image(self.with_p4, [0x8000, 0x9000], 65536))

    def test_start_that_a_dead_place_holds(self):
        flash = images.image(self.without_p3, [0x8000, 0x9000], 65536)
        self.assertEqual(self.start_of(self.put("free", flash), "P4", "0x1000"), ("P4", 0xA000))
        flash = images.image(self.without_p3, [0x8000, 0x9000, 0xA000], 65536)
        self.assertEqual(self.start_of(self.put("held", flash), "P4", "0x1000"), ("P4", 0xB000))

    def test_numbers_move(self):
        image = self.put("p2", images.quarry([0x9000]))
        lines = self.done(image, *GRANULE, "--delete", "P1", "--in-place").lines
        self.assertEqual(lines[:4], ["boot order now:   P2 (slot 1)", "boot order after: P2 (slot 0)",
                                     "slot 0:           P1 is deleted", "slot numbers:     each above 0 becomes one lower"])
        self.assertEqual([slot["name"] for slot in self.done(image, "--list", "--json").json()["slots"]], ["P2", "P3"])

    def test_name_that_is_digits(self):
        self.done(self.image, *GRANULE, "--rename", "P3", "0", "--in-place")
        self.assertIn("slot 2:           0 is deleted", self.done(self.image, *GRANULE, "--delete", "0").lines)

    def test_given_again_after_a_cut(self):
        """Cut where the table read is already the new one: repaired and given again, it takes no other slot."""
        image = self.put("p2", images.quarry([0x9000]))
        self.done(image, *GRANULE, "--delete", "P1", "--steps", self.path("plan"))
        flash = bytearray(self.get("p2"))
        steps = self.get("plan").decode().splitlines()[11:]
        for step in steps[:len(steps) // 2 + 1]:
            kind, address, *byte = step.split()
            at = int(address, 16)
            if kind == "erase":
                flash[at : at + 4096] = images.ERASED * 4096
            else:
                flash[at] &= int(byte[0], 16)
        cut = self.put("cut", flash)
        self.refused(6, cut, *GRANULE, "--delete", "P1")
        self.done(cut, *GRANULE, "--repair", "--in-place")
        again = self.refused(7, cut, *GRANULE, "--delete", "P1", "--in-place")
        self.assertIn("no slot is named P1", again.err)
        self.assertEqual([slot["name"] for slot in self.done(cut, "--list", "--json").json()["slots"]], ["P2", "P3"])

    def test_room_that_is_not_erased(self):
        self.assertNotIn("warning", self.done(self.image, *GRANULE, "--create", "P4", "4096").err)
        self.assertNotIn("warning", self.done(self.image, *GRANULE, "--delete", "P3", "--in-place").err)
        self.assertIn("the room of P4 is not erased", self.done(self.image, *GRANULE, "--create", "P4", "4096").err)

    def test_room_before_the_base(self):
        entries = [(name, start, 0x1000 if name == "FACTORY_IMAGE" else size, flags) for name, start, size, flags in images.QUARRY]
        part = self.put("part", images.image(entries, [0x8000], 65536)[0x4000:])
        answer = self.done(part, *GRANULE, "--create", "P4", "4096")
        self.assertIn("slot 3:           P4 is new, 4,096 bytes at 0x3000", answer.lines)
        self.assertIn("what stands there is not known", answer.err)

    def test_explain(self):
        lines = self.done(self.image, *GRANULE, "--create", "P4", "4096", "--explain").lines[4:]
        self.assertEqual(lines[:3], ["power fails before step 4,102 of 8,202: P2 starts, as now",
                                     "after it: P2 starts, as now; slot 3 is then P4, which is new", "no other slot can start first"])
        image = self.put("p2", images.quarry([0x9000]))
        lines = self.done(image, *GRANULE, "--delete", "P1", "--explain").lines[5:]
        self.assertEqual(lines[:3], ["power fails before step 4,102 of 8,202: P2 starts, as now",
                                     "after it: P2 starts, as now; P1 is then deleted", "no other slot can start first"])

    def test_refusals_of_create(self):
        create = (*GRANULE, "--in-place", "--create")
        for name in ("", "sixteen bytes at", "CPB1"):
            self.refused(9, self.image, *create, name, "4096")
        self.refused(10, self.image, *create, "P1", "4096")
        self.refused(10, self.image, *create, "P1", "0")
        for length in ("0", "1", "4095", "0x1001", "0xffffffff"):
            self.refused(40, self.image, *create, "P4", length)
        self.refused(42, self.image, *create, "P4", "0x6000")
        self.refused(42, self.image, *create, "P4", "0xfffff000")
        self.done(self.image, *GRANULE, "--create", "P4", "0x5000")
        self.assertEqual(self.get("quarry"), images.quarry())
        self.refused(6, self.put("cut", cut_pointers()), *create, "P4", "4096")
        more = [(f"S{number}", 0xB000 + 0x1000 * number, 0x1000, 0) for number in range(118)]
        for count, number in ((117, 0), (118, 41)):
            image = self.put("many", images.image(images.QUARRY + more[:count], [0x8000], 1 << 20))
            self.assertEqual(self.run_tool(image, *GRANULE, "--create", "P4", "4096").status, number)

    def test_refusals_of_delete(self):
        delete = (*GRANULE, "--in-place", "--delete")
        self.refused(43, self.image, *delete, "P1")
        self.refused(43, self.image, *delete, "P2")
        for name in ("P9", "2", "=P3", "", "SPT0"):
            answer = self.refused(7, self.image, *delete, name)
            self.assertIn(f"no slot is named {name}\n", answer.err)
            self.assertEqual("--delete takes the slot's name and never a number" in answer.err, name == "2")
        self.refused(6, self.put("cut", cut_pointers()), *delete, "P1")
        self.assertEqual(self.get("quarry"), images.quarry())

    def test_usage(self):
        for words in (["--create"], ["--create", "P4"], ["--create", "P4", "x"], ["--create", "P4", "-1"], ["--create", "P4", ""],
                      ["--create", "P4", "4294967296"], ["--create", "P4", "4096 "], ["--delete"]):
            answer = self.run_tool(self.image, *GRANULE, *words)
            self.assertEqual((answer.status, answer.out), (120, ""), words)
        self.failed(120, "--granule", self.image, "--create", "P4", "4096")
        self.failed(120, "--granule", self.image, "--delete", "P3")


class Refusals(Bench):
    def setUp(self):
        super().setUp()
        self.image = self.put("quarry", images.quarry())

    def test_each(self):
        fixed = ("--spt0", "0x4000", "--spt1", "0x5000")
        self.refused(1, self.put("odd", images.quarry()[:-1]), "--list")
        self.refused(2, self.image, "--granule", "5000", "--list")
        self.refused(3, self.image, "--spt0", "0x4000", "--spt1", "0x4000", "--list")
        self.refused(3, self.image, *fixed, "--granule", "32768", "--list")
        swapped = self.refused(51, self.image, "--spt0", "0x5000", "--spt1", "0x4000", "--list")
        self.assertIn("SPT0 at 0x5000 breaks rule 10 at entry 2, whose bytes are at 0x5060: The entry SPT0 or SPT1", swapped.err)
        self.assertIn("SPT1 at 0x4000 breaks rule 10 at entry 2, whose bytes are at 0x4060", swapped.err)
        self.assertIn("give the addresses that the table has", swapped.err)
        erased = self.refused(50, self.image, "--spt0", "0xc000", "--spt1", "0xd000", "--list")
        self.assertIn("SPT0 at 0xc000 breaks rule 1: The magic or the version is wrong.", erased.err)
        flash = images.quarry()
        flash[0x6000] = flash[0x7000] = 0
        self.refused(5, self.put("pointers", flash), *fixed, "--list")
        self.refused(6, self.put("cut", cut_pointers()), *GRANULE, "--enable", "P3")
        self.refused(7, self.image, *GRANULE, "--enable", "3")
        self.refused(7, self.image, *GRANULE, "--enable", "4294967296")
        self.assertIn("no slot is named P9", self.refused(7, self.image, *GRANULE, "--disable", "P9").err)
        self.refused(8, self.image, *GRANULE, "--disable", "P3")
        for name in ("", "sixteen bytes at", "SPT0"):
            self.refused(9, self.image, *GRANULE, "--rename", "P3", name)
        self.refused(10, self.image, *GRANULE, "--rename", "P3", "P1")
        flash = images.quarry()
        flash[0x9000] = flash[0xA000] = 0xFF
        empty = self.put("empty", flash)
        self.refused(14, empty, *GRANULE, "--enable", "P2")
        self.refused(14, empty, *GRANULE, "--enable", "P3", "--in-place")
        self.assertEqual(self.get("empty"), flash)
        self.done(empty, *GRANULE, "--enable", "P1")
        self.assertEqual(self.get("quarry"), images.quarry())

    def test_json_says_it_too(self):
        answer = self.run_tool(self.image, *GRANULE, "--disable", "P3", "--json").json()
        self.assertEqual((answer["refused"], answer["meaning"], answer["next"]), (8, *refusals()[8]))


class Writing(Bench):
    def setUp(self):
        super().setUp()
        self.image = self.put("quarry", images.quarry())
        self.new = images.quarry([0x8000, 0x9000, 0xA000])

    def enable(self, *words, **options):
        return self.run_tool(self.image, *GRANULE, "--enable", "P3", *words, **options)

    def assert_untouched(self, *more):
        self.assertEqual(self.get("quarry"), images.quarry())
        self.assertEqual(sorted(os.listdir(self.folder)), sorted(["quarry", *more]))

    def test_copy(self):
        self.assertEqual(self.enable("-o", self.path("new")).status, 0)
        self.assertEqual(self.get("new"), self.new)
        self.assert_untouched("new")

    def test_copy_that_cannot_be(self):
        os.symlink(self.image, self.path("link"))
        for status, path in [(120, self.image), (120, self.path("link")), (121, self.path("none/new")), (121, self.folder),
                             (121, "/dev/full")]:
            answer = self.enable("-o", path)
            self.assertEqual(answer.status, status, answer.err)
            self.assert_untouched("link")
        self.assertEqual(self.enable("--steps", "/dev/full").status, 121)
        self.assertEqual(self.enable("--steps", self.image).status, 120)
        with open("/dev/full", "wb") as full:
            self.assertEqual(self.enable(stdout=full).status, 121)

    def test_full_disk(self):
        """A limit on the length of files stands for a disk that is full in the midst."""
        def limit():
            resource.setrlimit(resource.RLIMIT_FSIZE, (20000, 20000))
        for words in [("-o", self.path("new")), ("--in-place",)]:
            self.assertEqual(self.enable(*words, preexec_fn=limit).status, 121)
            self.assert_untouched()

    def test_disk_of_80_kib(self):
        """A disk with room for the image and not for a second one: a mount of its own, which needs root."""
        script = 'mount -t tmpfs -o size=80k none "$1" && cp "$2" "$1/image" && shift 2 && exec "$@"'
        disk = self.path("disk")
        os.mkdir(disk)
        prefix = ["unshare", "-m", "sh", "-c", script, "sh", disk, self.image]
        if subprocess.run([*prefix, "true"], stderr=subprocess.DEVNULL, check=False).returncode != 0:
            self.skipTest("no mount of our own here")
        for output in (["--in-place"], ["-o", disk + "/copy"], ["--steps", disk + "/plan"]):
            check = f'"$@"; echo $?; cmp "{disk}/image" "{self.image}" && ls "{disk}"'
            words = [RSU_IMAGE, "-q", disk + "/image", *GRANULE, "--rename", "P3", "NEW", *output]
            done = subprocess.run([*prefix, "sh", "-c", check, "sh", *words], stdout=subprocess.PIPE, stderr=subprocess.PIPE,
                                  check=False, timeout=60)
            self.assertEqual(done.stdout.split()[-2:], [b"121", b"image"], done.stderr)
            self.assertIn(b"No space left on device", done.stderr)

    def test_in_place(self):
        os.chmod(self.image, 0o640)
        os.symlink("quarry", self.path("link"))
        answer = self.run_tool(self.path("link"), *GRANULE, "--enable", "P3", "--in-place")
        self.assertEqual(answer.status, 0, answer.err)
        self.assertEqual((self.get("quarry"), self.get("quarry.bak")), (self.new, images.quarry()))
        self.assertEqual(os.stat(self.image).st_mode & 0o777, 0o640)
        self.assertTrue(os.path.islink(self.path("link")))
        self.assertEqual(sorted(os.listdir(self.folder)), ["link", "quarry", "quarry.bak"])
        self.done(self.image, *GRANULE, "--disable", "P3", "--in-place")
        self.assertEqual(self.get("quarry.bak"), self.new)

    def test_in_place_of_nothing(self):
        self.assertEqual(self.done(self.image, *GRANULE, "--enable", "P2", "--in-place").lines[-1],
                         "0 steps: all is as asked already")
        self.assert_untouched()

    def test_not_writable(self):
        os.chmod(self.image, 0o444)
        self.assertEqual(self.enable("--in-place").status, 121)
        self.assert_untouched()


class Interrupted(Bench):
    """The power or an operator stops the tool at each of its system calls in turn."""

    def calls(self, number, action, *words):
        # the search for leaks traces the program too, and two cannot
        done = subprocess.run([AT_CALL, str(number), action, RSU_IMAGE, "-q", *words], stdout=subprocess.PIPE,
                              stderr=subprocess.PIPE, check=True, timeout=60,
                              env={**os.environ, "ASAN_OPTIONS": "detect_leaks=0"})
        made, status = done.stdout.split()[-2:]
        return int(made), int(status)

    old, new = images.quarry(), images.quarry([0x8000, 0x9000, 0xA000])

    def command(self, *output):
        return (self.path("image"), *GRANULE, "--enable", "P3", *output)

    def at_each_call(self, action, *words):
        """Runs the tool on a fresh image once for each of its calls: the call's number and the status."""
        self.put("image", self.old)
        made, status = self.calls(0, "kill", *words)
        self.assertEqual(status, 0)
        for number in range(1, made + 1):
            for name in os.listdir(self.folder):
                os.unlink(self.path(name))
            self.put("image", self.old)
            reached, status = self.calls(number, action, *words)
            if reached >= number:  # how often a program asks for memory differs from run to run by a call
                yield number, status

    def assert_old_or_new(self, number):
        now = self.get("image")
        self.assertIn(bytes(now), (bytes(self.old), bytes(self.new)), number)
        if now == self.new:
            self.assertEqual(self.get("image.bak"), self.old)
        return now == self.new

    def test_killed_anywhere_leaves_old_or_new(self):
        seen = set()
        for number, status in self.at_each_call("kill", *self.command("--in-place")):
            self.assertEqual(status, 128 + 9)
            seen.add(self.assert_old_or_new(number))
        self.assertEqual(seen, {False, True})

    @unittest.skipIf(IS_SANITIZED, "the sanitizer's own calls would fail")
    def test_failing_anywhere_leaves_old_or_new(self):
        seen = set()
        for number, status in self.at_each_call("fail", *self.command("--in-place")):
            seen.add(status)
            is_new = self.assert_old_or_new(number)
            self.assertTrue(is_new or status != 0, number)
        self.assertLess({0, 121}, seen)

    @unittest.skipIf(IS_SANITIZED, "the sanitizer's own calls would fail")
    def test_failing_anywhere_leaves_no_half_copy(self):
        for number, status in self.at_each_call("fail", *self.command("-o", self.path("copy"))):
            self.assertEqual(self.get("image"), self.old)
            self.assertTrue(status != 0 or os.path.exists(self.path("copy")), number)
            if os.path.exists(self.path("copy")):
                self.assertEqual(self.get("copy"), self.new, number)

    def test_file_that_shrinks(self):
        words = (self.path("image"), "--list")
        self.assertEqual({status for _, status in self.at_each_call(self.path("image"), *words)}, {0, 1, 121})

    def test_image_that_shrinks_is_not_replaced(self):
        for number, status in self.at_each_call(self.path("image"), *self.command("--in-place")):
            self.assertIn(status, (0, 1, 121), number)
            self.assertIn(len(self.get("image")), (65536, 0), number)
