"""docs/BENCH.md: each command on it is run, and what is seen must be what the page shows."""

import os
import shlex
import subprocess

import images
from bench import APPLY_STEPS, ROOT, RSU_IMAGE, FAKE_MTD, Bench

BASE = 0x910000


def commands():
    """Each command of the page, and the lines below it."""
    with open(os.path.join(ROOT, "docs", "BENCH.md"), encoding="utf-8") as file:
        for line in file:
            if line.startswith("    $ "):
                command, seen = line[6:].rstrip("\n"), []
                yield command, seen
            elif line.startswith("    "):
                seen.append(line[4:].rstrip("\n"))


class BenchPage(Bench):
    def dump(self, name, values, empty=()):
        """A dump of the vendor's flash from SPT0 on, with some slots empty."""
        with open(self.path(name), "wb") as file:
            file.truncate(images.VENDOR_LENGTH - BASE)
            for start, block in images.blocks(images.VENDOR, values):
                file.seek(start - BASE)
                file.write(block.ljust(0x8000, images.ERASED))
            for start in (0x1000000, 0x2000000, 0x3000000):
                file.seek(start - BASE)
                file.write(images.ERASED * images.BLOCK if start in empty else b"\1")

    def cut(self, name):
        """The plan that puts P3 first on box17, cut after 12 steps."""
        self.done(self.path("box17.img"), "--granule", "4096", "--enable", "P3", "--steps", self.path("cut.plan"))
        self.dump(name, (0x1000000, 0x2000000))
        steps = self.get("cut.plan").decode().splitlines()[11:]
        with open(self.path(name), "r+b") as file:
            for step in steps[:12]:
                _, address, byte = step.split()
                file.seek(int(address, 16))
                file.write(bytes([int(byte, 16)]))

    def seen(self, command):
        """What a command shows. Its /dev/mtd0 is the flash of box 18."""
        device = self.path("mtd0")
        words = [device if word == "/dev/mtd0" else word for word in shlex.split(command)]
        fake = {"FAKE_MTD": device, "FAKE_MTD_ERASE": "4096", "LD_PRELOAD": FAKE_MTD} if device in words else {}
        done = subprocess.run(words, stdout=subprocess.PIPE, stderr=subprocess.STDOUT, cwd=self.folder, check=False, timeout=60,
                              env={**os.environ, **fake})
        return done.stdout.decode().replace(device, "/dev/mtd0").splitlines()

    def test_every_command(self):
        os.symlink(RSU_IMAGE, self.path("rsu-image"))
        os.symlink(APPLY_STEPS, self.path("apply-steps"))
        self.dump("box17.img", (0x1000000, 0x2000000))
        self.dump("box18.img", (0x1000000,))
        self.dump("box19.img", (0x1000000,), empty=(0x3000000,))
        self.dump("mtd0", (0x1000000,))
        self.cut("cut.img")
        pairs = list(commands())
        self.assertGreater(len(pairs), 8)
        for command, lines in pairs:
            self.assertEqual(self.seen(command), lines, command)
