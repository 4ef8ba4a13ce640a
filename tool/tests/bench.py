"""What the tests share: a folder of their own, the programs, the words of docs/REFUSALS.md."""

import json
import os
import re
import shutil
import subprocess
import tempfile
import unittest

ROOT = os.path.dirname(os.path.dirname(os.path.dirname(os.path.abspath(__file__))))
OUT = os.environ.get("OUT", os.path.join(ROOT, "target", "tool"))
RSU_IMAGE = os.path.join(OUT, "rsu-image")
APPLY_STEPS = os.path.join(OUT, "apply-steps")
AT_CALL = os.path.join(OUT, "at-call")
FAKE_MTD = os.path.join(OUT, "fake-mtd.so")

# compiled with a sanitizer, a program makes calls of its own and takes its time
IS_SANITIZED = "sanitize" in os.environ.get("CFLAGS", "")


def refusals():
    """Number to what it means and what to do next."""
    rows = {}
    with open(os.path.join(ROOT, "docs", "REFUSALS.md"), encoding="utf-8") as file:
        for line in file:
            cells = [cell.strip().replace("`", "") for cell in line.split("|")]
            if len(cells) > 5 and re.fullmatch(r"\d+", cells[1]):
                rows[int(cells[1])] = (cells[3], cells[4])
    return rows


class Answer:
    def __init__(self, done):
        self.status = done.returncode
        self.out = done.stdout.decode("latin-1")
        self.err = done.stderr.decode("latin-1")
        self.lines = self.out.splitlines()

    def json(self):
        return json.loads(self.out)


class Bench(unittest.TestCase):
    def setUp(self):
        self.folder = tempfile.mkdtemp(prefix="rsu-image.")
        os.chmod(self.folder, 0o755)
        self.addCleanup(shutil.rmtree, self.folder, True)

    def path(self, name):
        return os.path.join(self.folder, name)

    def put(self, name, data):
        with open(self.path(name), "wb") as file:
            file.write(data)
        return self.path(name)

    def get(self, name):
        with open(self.path(name), "rb") as file:
            return file.read()

    def call(self, program, *words, **options):
        words = [program] + [word if isinstance(word, bytes) else str(word) for word in words]
        done = subprocess.run(words, stdout=options.pop("stdout", subprocess.PIPE), stderr=subprocess.PIPE,
                              check=False, timeout=60, **options)
        if done.stdout is None:
            done.stdout = b""
        answer = Answer(done)
        self.assertNotIn("Sanitizer", answer.err)
        self.assertNotIn("runtime error", answer.err)
        return answer

    def run_tool(self, *words, **options):
        return self.call(RSU_IMAGE, *words, **options)

    def done(self, *words, **options):
        """An answer that must be good."""
        answer = self.run_tool(*words, **options)
        self.assertEqual(answer.status, 0, answer.err)
        return answer

    def refused(self, number, *words):
        """A refusal must have its number, what it means and what to do next."""
        answer = self.run_tool(*words)
        meaning, after = refusals()[number]
        self.assertEqual(answer.status, number, answer.err)
        self.assertIn(meaning, answer.err)
        self.assertIn(after, answer.err)
        return answer

    def failed(self, status, text, *words, **options):
        answer = self.run_tool(*words, **options)
        self.assertEqual(answer.status, status, answer.err)
        self.assertIn(text, answer.err)
        return answer

    def as_device(self, name, erase_size, **more):
        """What makes a file of the bench a flash device."""
        fake = {"FAKE_MTD": self.path(name), "FAKE_MTD_ERASE": str(erase_size), "LD_PRELOAD": FAKE_MTD}
        fake.update({key: str(value) for key, value in more.items()})
        return {"env": {**os.environ, **fake}}
