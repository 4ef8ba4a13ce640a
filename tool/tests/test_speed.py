"""On a dump of 256 MiB that is full of data, --list takes no longer than reading the file once."""

import subprocess
import time
import unittest

import images
from bench import IS_SANITIZED, RSU_IMAGE, Bench

TURNS = 9


def seconds(*words):
    began = time.perf_counter()
    subprocess.run(words, stdout=subprocess.DEVNULL, check=True)
    return time.perf_counter() - began


class Speed(Bench):
    @unittest.skipIf(IS_SANITIZED, "a sanitizer takes its time")
    def test_list_against_cat(self):
        sparse, dense = self.path("sparse"), self.path("dense")
        images.write_vendor(sparse)
        with open(sparse, "rb") as source, open(dense, "wb") as file:
            while piece := source.read(1 << 20):
                file.write(piece)
        turns = [(seconds("cat", dense), seconds(RSU_IMAGE, "-q", dense, "--list")) for _ in range(TURNS)]
        reading, listing = (min(times) for times in zip(*turns))
        print(f"256 MiB, best of {TURNS}: cat {1e3 * reading:.0f} ms, --list {1e3 * listing:.0f} ms,"
              f" sparse {1e3 * min(seconds(RSU_IMAGE, '-q', sparse, '--list') for _ in range(TURNS)):.0f} ms")
        self.assertLessEqual(listing, reading)
