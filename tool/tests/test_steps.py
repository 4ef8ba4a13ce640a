"""Plans: what apply-steps and --device leave is what -o gives, and a plan that does not fit touches nothing."""

import os
import stat

import images
from bench import APPLY_STEPS, Bench

FULL = [0x8000, 0x9000] * 254


def scaled(entries, by):
    """The same layout with every start and length so many times as large."""
    return [(name, start * by, size * by, flags) for name, start, size, flags in entries]


def damaged(flash, *starts):
    flash = bytearray(flash)
    for start in starts:
        flash[start : start + 16] = b"\xff" * 16
    return flash


# case 9: disabling P1 in place would name P2 on the way
CASE_9 = [("P1", 0x11000, 0x1000, 0) if name == "P1" else ("P2", 0x10000, 0x1000, 0) if name == "P2" else (name, *rest)
          for name, *rest in images.QUARRY]

JOBS = {
    "enable": (images.quarry(), 4096, ["--enable", "P3"]),
    "enable again": (images.quarry(), 4096, ["--enable", "P1"]),
    "enable the first": (images.quarry(), 4096, ["--enable", "P2"]),
    "enable in a full block": (images.quarry(FULL), 4096, ["--enable", "P3"]),
    "disable": (images.quarry(), 4096, ["--disable", "P2"]),
    "disable twice enabled": (images.quarry([0x8000, 0x9000, 0x8000]), 4096, ["--disable", "P1"]),
    "disable by a rewrite": (images.image(CASE_9, [0x11000, 0x10000], 73728), 4096, ["--disable", "P1"]),
    "rename": (images.quarry(), 4096, ["--rename", "P1", "fifteen bytes.."]),
    "create": (images.quarry(), 4096, ["--create", "P4", "0x5000"]),
    "delete": (images.quarry([0x9000]), 4096, ["--delete", "P1"]),
    "repair of pointers": (damaged(images.quarry(), 0x6000), 4096, ["--repair"]),
    "repair of tables": (damaged(images.quarry(), 0x5000), 4096, ["--repair"]),
    "repair of both": (damaged(images.quarry(), 0x4000, 0x7000), 4096, ["--repair"]),
    "repair of nothing": (images.quarry(), 4096, ["--repair"]),
    "granule 32768": (images.image(scaled(images.QUARRY, 8), [0x40000], 1 << 19), 32768, ["--rename", "P2", "NEW"]),
    "granule 65536": (images.image(scaled(images.QUARRY, 16), [0x80000] * 508, 1 << 20), 65536, ["--enable", "P3"]),
    "create, granule 32768": (images.image(scaled(images.QUARRY, 8), [0x40000], 1 << 19), 32768, ["--create", "P4", "0x1000"]),
    "delete, granule 65536": (images.image(scaled(images.QUARRY, 16), [0x80000], 1 << 20), 65536, ["--delete", "P2"]),
    "from SPT0 on": (images.quarry()[0x4000:], 4096, ["--rename", "P2", "NEW"]),
}


# as mtd/mtd-abi.h numbers them
MTD_TYPES = {0: "ABSENT", 1: "RAM", 2: "ROM", 3: "NORFLASH", 4: "NANDFLASH", 6: "DATAFLASH", 7: "UBIVOLUME", 8: "MLCNANDFLASH"}


class Plans(Bench):
    def make(self, name):
        """The image, the image after the job by -o, and the plan."""
        flash, granule, words = JOBS[name]
        image = self.put("image", flash)
        self.done(image, "--granule", granule, *words, "-o", self.path("copy"))
        self.done(image, "--granule", granule, *words, "--steps", self.path("plan"))
        self.assertEqual(self.get("image"), flash)

    def apply(self, *words, **options):
        return self.call(APPLY_STEPS, *words, self.path("plan"), self.path("image"), **options)

    def assert_applied(self, answer):
        self.assertEqual(answer.status, 0, answer.err)
        self.assertEqual(self.get("image"), self.get("copy"))

    def assert_touches_nothing(self, plan, text, flash=None):
        flash = flash if flash is not None else JOBS["enable"][0]
        self.put("image", flash)
        self.put("plan", plan)
        answer = self.apply()
        self.assertEqual(answer.status, 122, answer.err)
        self.assertIn(text, answer.err)
        self.assertEqual(self.get("image"), flash)

    def test_every_kind_of_job(self):
        for name in JOBS:
            with self.subTest(name):
                self.make(name)
                self.assert_applied(self.apply())

    def test_every_kind_of_job_on_a_device(self):
        for name, (flash, granule, words) in JOBS.items():
            with self.subTest(name):
                self.make(name)
                self.assert_applied(self.apply(**self.as_device("image", granule)))
                image = self.put("image", flash)
                answer = self.run_tool(image, *words, "--device", **self.as_device("image", granule))
                self.assert_applied(answer)

    def test_plan_says_what_it_is_for(self):
        self.make("from SPT0 on")
        lines = self.get("plan").decode().splitlines()
        self.assertEqual(lines[:8], ["rsu-image plan 1", "length 49152", "base 0x4000", "granule 4096", "spt0 0x0", "spt1 0x1000",
                                     "cpb0 0x2000", "cpb1 0x3000"])
        self.assertEqual(lines[8], f"steps {len(lines) - 11}")

    def test_cut_short(self):
        self.make("enable")
        plan = self.get("plan")
        for length in range(0, len(plan) - 1, 7):
            self.assert_touches_nothing(plan[:length], "othing was touched")
        self.assert_touches_nothing(plan + plan.splitlines(True)[-1], "lines are not those")

    def test_reordered_or_changed(self):
        self.make("enable")
        lines = self.get("plan").splitlines(True)
        self.assert_touches_nothing(b"".join(lines[:-2] + lines[:-3:-1]), "lines are not those")
        for number, line in enumerate(lines):
            digit = max(at for at, byte in enumerate(line) if byte in b"0123456789abcdef")
            other = line[:digit] + (b"1" if line[digit : digit + 1] == b"0" else b"0") + line[digit + 1 :]
            if line.startswith(b"base"):
                continue  # said for the reader; no step depends on it
            self.assert_touches_nothing(b"".join(lines[:number] + [other] + lines[number + 1 :]), "othing was touched")

    def test_another_image(self):
        self.make("enable")
        plan = self.get("plan")
        self.assert_touches_nothing(plan, "does not hold what the plan was made for", images.quarry([0x9000, 0x8000]))
        self.assert_touches_nothing(plan, "bytes long", images.quarry() + b"\xff" * 4096)
        self.put("image", images.quarry())
        self.assert_applied(self.apply())
        self.assert_touches_nothing(plan, "does not hold what the plan was made for", bytes(self.get("copy")))

    def test_another_erase_size(self):
        self.make("enable")
        answer = self.apply(**self.as_device("image", 65536))
        self.assertEqual(answer.status, 122)
        self.assertIn("erases 65536 bytes at a time", answer.err)
        self.assertEqual(self.get("image"), images.quarry())

    def test_type_of_the_device(self):
        flash, granule, words = JOBS["enable"]
        self.make("enable")
        for program in (self.apply, lambda **device: self.run_tool(self.path("image"), *words, "--device", **device)):
            for number, name in MTD_TYPES.items():
                with self.subTest(name):
                    self.put("image", flash)
                    answer = program(**self.as_device("image", granule, FAKE_MTD_TYPE=number))
                    if name in ("RAM", "NORFLASH"):
                        self.assert_applied(answer)
                        continue
                    self.assertEqual(answer.status, 121, answer.err)
                    self.assertIn("is no NOR flash", answer.err)
                    self.assertEqual(self.get("image"), flash)

    def test_worn_byte_stops_it(self):
        flash, granule, words = JOBS["enable"]
        self.make("enable")
        for program in (self.apply, lambda **device: self.run_tool(self.path("image"), *words, "--device", **device)):
            self.put("image", flash)
            self.put("log", b"")
            answer = program(**self.as_device("image", granule, FAKE_MTD_WORN=0x7031, FAKE_MTD_LOG=self.path("log")))
            self.assertEqual(answer.status, 123, answer.err)
            self.assertIn("step 2 of 16: the byte at 0x7031 is 0xff and should be 0xa0", answer.err)
            self.assertIn("Never resume", answer.err)
            self.assertEqual(self.get("log"), b"program 28720 1\nprogram 28721 1\n")

    def test_one_step_at_a_time_in_order(self):
        self.make("enable in a full block")
        self.put("log", b"")
        self.assert_applied(self.apply(**self.as_device("image", 4096, FAKE_MTD_LOG=self.path("log"))))
        steps = [line.split() for line in self.get("plan").decode().splitlines()[11:]]
        wanted = [f"{kind} {int(address, 16)} {4096 if kind == 'erase' else 1}" for kind, address, *_ in steps]
        self.assertEqual(self.get("log").decode().splitlines(), wanted)

    def test_progress(self):
        self.make("enable")
        self.assertEqual(self.apply("--progress").lines, [str(number) for number in range(1, 17)])

    def test_granule_of_the_device(self):
        image = self.put("image", images.quarry())
        answer = self.done(image, "--enable", "P3", **self.as_device("image", 4096))
        self.assertIn("16 steps", answer.out)
        self.assertEqual(self.get("image"), images.quarry())

    def test_block_device(self):
        devices = [entry.path for entry in os.scandir("/dev") if stat.S_ISBLK(entry.stat().st_mode)]
        if not devices:
            self.skipTest("this machine shows no block device")
        self.make("enable")
        answer = self.call(APPLY_STEPS, self.path("plan"), devices[0])
        self.assertEqual(answer.status, 121)
        self.assertIn("not /dev/mtdblockN", answer.err)
        self.failed(121, "not /dev/mtdblockN", devices[0], "--list")

    def test_usage_and_files(self):
        for words, status in [([], 120), (["--progress"], 120), ([self.path("none"), self.path("none")], 121)]:
            self.assertEqual(self.call(APPLY_STEPS, *words).status, status)
        self.make("enable")
        os.unlink(self.path("image"))
        self.assertEqual(self.apply().status, 121)
